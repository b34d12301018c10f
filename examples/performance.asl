// An SSDT that adds performance and idle states to processors that another table declares.
DefinitionBlock ("", "SSDT", 2, "POWER ", "PERF    ", 0x00000001)
{
    External (\_SB.CPU0, DeviceObj)
    External (\_SB.CPU1, DeviceObj)
    Scope (\_SB.CPU0)
    {
        Name (_PCT, Package (0x02)
        {
            ResourceTemplate () { Register (SystemIO, 8, 0, 0xB2, 1) },
            ResourceTemplate () { Register (SystemIO, 8, 0, 0xB3, 1) }
        })
        Name (_PSS, Package (0x03)
        {
            Package (0x06) { 0x00000A8C, 0x000088B8, 0x0000000A, 0x0000000A, 0x00001500, 0x00001500 },
            Package (0x06) { 0x00000960, 0x00007530, 0x0000000A, 0x0000000A, 0x00001200, 0x00001200 },
            Package (0x06) { 0x00000640, 0x00004E20, 0x0000000A, 0x0000000A, 0x00000C00, 0x00000C00 }
        })
        Name (_PSD, Package (0x01)
        {
            Package (0x05) { 0x05, 0x00, 0x00000000, 0x000000FC, 0x00000002 }
        })
        Name (_PPC, 0x00)
    }
    Scope (\_SB.CPU1)
    {
        Alias (\_SB.CPU0._PCT, _PCT)
        Method (_PSS, 0, NotSerialized) { Return (\_SB.CPU0._PSS) }
        Name (_PSD, Package (0x01)
        {
            Package (0x05) { 0x05, 0x00, 0x00000000, 0x000000FC, 0x00000002 }
        })
    }
}
