// A DSDT whose objects have values of every kind, whether or not they mean anything there.
DefinitionBlock ("", "DSDT", 2, "POWER ", "VALUES  ", 0x00000001)
{
    Name (NUMB, 0x07)
    OperationRegion (MEMR, SystemMemory, 0xFE000000, 0x10)
    Field (MEMR, ByteAcc, NoLock, Preserve)
    {
        FLDA, 8
    }
    Scope (\_SB)
    {
        Device (PCI0) { Name (_HID, EisaId ("PNP0A08")) }
        Device (CPU0)
        {
            Name (_HID, "ACPI0007")
            Name (_UID, "a\"b\\c'\x01d")
            Name (_PSS, Package (0x05)
            {
                Package (0x06) { Zero, One, Ones, 0xFF, 0x0000000100000000, 0xFFFFFFFF },
                Package (0x00) {},
                Package (0x03) { Package (0x02) { "", NUMB } }
            })
            Name (_PCT, Package (0x0A)
            {
                \_SB.PCI0,
                \_SB.MODL,
                \_SB,
                Buffer (0x11) { 0x82, 0x0C, 0x00, 0x01, 0x08, 0x00, 0x01, 0xB2, 0, 0, 0, 0, 0, 0, 0, 0x79, 0x3D },
                Buffer (0x11) { 0x82, 0x0C, 0x00, 0x7F, 0x40, 0x01, 0x04, 0xEF, 0xCD, 0xAB, 0x89, 0x67, 0x45, 0x23, 0x01, 0x79, 0 },
                Buffer (0x11) { 0x82, 0x0C, 0x00, 0x0A, 0x20, 0x00, 0x05, 0x10, 0, 0, 0, 0, 0, 0, 0, 0x79, 0 },
                Buffer (0x11) { 0x82, 0x0C, 0x00, 0x04, 0x20, 0x00, 0x01, 0x10, 0, 0, 0, 0, 0, 0, 0, 0x79, 0 },
                Buffer (0x03) { 0x01 },
                Buffer (0x00) {},
                Buffer (0x14) { 1, 2, 3, 4, 5, 6, 7, 8, 9, 10, 11, 12, 13, 14, 15, 16, 17, 18, 19, 20 }
            })
            Name (_PSD, Buffer (0x02) { 0xFF, 0x00 })
            Name (_CPC, Package (0x0101) { 1, 2 })
            Device (_TSS) {}
            Method (_PTC, 0, NotSerialized)
            {
                Local0 = Package (0x03) {}
                Local0 [1] = 0x05
                Return (Local0)
            }
            Method (_TSD, 0, NotSerialized)
            {
                Local0 = ToString (Buffer (0x02) { 0xC3, 0xA4 })
                Return (Local0)
            }
        }
        Device (CPU1)
        {
            Name (_HID, "ACPI0007")
            Alias (\FLDA, _PPC)
            Method (_TPC, 0, NotSerialized) { Return (0x0123456789ABCDEF) }
        }
        Device (MODL)
        {
            Name (_ADR, 0x00)
            Device (CPU2) { Name (_HID, "ACPI0007") }
        }
    }
}
