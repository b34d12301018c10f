// A DSDT of revision 1, whose integers have 32 bits.
DefinitionBlock ("", "DSDT", 1, "POWER ", "NARROW  ", 0x00000001)
{
    Scope (\_PR)
    {
        Processor (CPU0, 0x00, 0x00000810, 0x06)
        {
            Name (_PPC, Ones)
            Method (_TPC, 0, NotSerialized) { Return (~One) }
        }
    }
}
