// A DSDT of the time when processors were declared by a term of their own.
DefinitionBlock ("", "DSDT", 1, "POWER ", "LEGACY  ", 0x00000001)
{
    Scope (\_PR)
    {
        Processor (CPU0, 0x00, 0x00000810, 0x06)
        {
            Name (_PCT, Package (0x02)
            {
                ResourceTemplate () { Register (SystemIO, 8, 0, 0x00B2, 1) },
                ResourceTemplate () { Register (SystemIO, 8, 0, 0x00B3, 1) }
            })
            Name (_PSS, Package (0x02)
            {
                Package (0x06) { 2400, 35000, 10, 10, 0x00, 0x00 },
                Package (0x06) { 1600, 20000, 10, 10, 0x01, 0x01 }
            })
            Method (_PPC, 0, NotSerialized)
            {
                Return (LMT0)
            }
        }
        Processor (CPU1, 0x01, 0x00000000, 0x00) {}
    }
    Name (LMT0, 0x00)
    Scope (\_SB)
    {
        Device (PCI0)
        {
            Name (_HID, EisaId ("PNP0A03"))
            Name (_ADR, Zero)
            Device (LPCB)
            {
                Name (_ADR, 0x001F0000)
                OperationRegion (LPCR, PCI_Config, 0x40, 0x10)
                Field (LPCR, ByteAcc, NoLock, Preserve)
                {
                    PMBA, 16,
                    GPIO, 8
                }
            }
        }
    }
}
