// The DSDT of an Intel desktop of the time when processors were declared by a term of their own. Their states come with
// another table.
DefinitionBlock ("", "DSDT", 2, "POWER ", "DESKTOP ", 0x00000001)
{
    Scope (\_PR)
    {
        Processor (CPU0, 0x01, 0x00001810, 0x06) {}
        Processor (CPU1, 0x02, 0x00001810, 0x06) {}
        Processor (CPU2, 0x03, 0x00001810, 0x06) {}
        Processor (CPU3, 0x04, 0x00001810, 0x06) {}
    }
    Scope (\_SB)
    {
        Device (PCI0)
        {
            Name (_HID, EisaId ("PNP0A08"))
            Name (_CID, EisaId ("PNP0A03"))
        }
    }
}
