// The SSDT of the desktop: performance states that its processors share by software, and throttling states that any
// processor of a core may set.
DefinitionBlock ("", "SSDT", 2, "POWER ", "DESKPM  ", 0x00000001)
{
    External (\_PR.CPU0, DeviceObj)
    External (\_PR.CPU1, DeviceObj)
    External (\_PR.CPU2, DeviceObj)
    External (\_PR.CPU3, DeviceObj)
    Scope (\_PR.CPU0)
    {
        Name (_PPC, 0x00)
        Name (_PCT, Package (0x02)
        {
            ResourceTemplate () { Register (FFixedHW, 16, 0, 0x0199, 0) },
            ResourceTemplate () { Register (FFixedHW, 16, 0, 0x0198, 0) }
        })
        Name (_PSS, Package (0x04)
        {
            Package (0x06) { 3400, 84000, 10, 10, 0x2200, 0x2200 },
            Package (0x06) { 2800, 62000, 10, 10, 0x1C00, 0x1C00 },
            Package (0x06) { 2200, 44000, 10, 10, 0x1600, 0x1600 },
            Package (0x06) { 1600, 28000, 10, 10, 0x1000, 0x1000 }
        })
        Name (_PSD, Package (0x01)
        {
            Package (0x05) { 0x05, 0x00, 0x00, 0xFC, 0x04 }
        })
        Name (_TPC, 0x00)
        Name (_PTC, Package (0x02)
        {
            ResourceTemplate () { Register (FFixedHW, 5, 0, 0x019A, 0) },
            ResourceTemplate () { Register (FFixedHW, 0, 0, 0, 0) }
        })
        Name (_TSS, Package (0x04)
        {
            Package (0x05) { 100, 1000, 0, 0x00, 0 },
            Package (0x05) { 75, 750, 0, 0x1E, 0 },
            Package (0x05) { 50, 500, 0, 0x1C, 0 },
            Package (0x05) { 25, 250, 0, 0x1A, 0 }
        })
        Name (_TSD, Package (0x01)
        {
            Package (0x05) { 0x05, 0x00, 0x00, 0xFD, 0x02 }
        })
    }
    Scope (\_PR.CPU1)
    {
        Method (_PPC, 0, NotSerialized) { Return (\_PR.CPU0._PPC) }
        Name (_PCT, Package (0x02)
        {
            ResourceTemplate () { Register (FFixedHW, 16, 0, 0x0199, 0) },
            ResourceTemplate () { Register (FFixedHW, 16, 0, 0x0198, 0) }
        })
        Name (_PSS, Package (0x04)
        {
            Package (0x06) { 3400, 84000, 10, 10, 0x2200, 0x2200 },
            Package (0x06) { 2800, 62000, 10, 10, 0x1C00, 0x1C00 },
            Package (0x06) { 2200, 44000, 10, 10, 0x1600, 0x1600 },
            Package (0x06) { 1600, 28000, 10, 10, 0x1000, 0x1000 }
        })
        Name (_PSD, Package (0x01)
        {
            Package (0x05) { 0x05, 0x00, 0x00, 0xFC, 0x04 }
        })
        Name (_TPC, 0x00)
        Name (_PTC, Package (0x02)
        {
            ResourceTemplate () { Register (FFixedHW, 5, 0, 0x019A, 0) },
            ResourceTemplate () { Register (FFixedHW, 0, 0, 0, 0) }
        })
        Name (_TSS, Package (0x04)
        {
            Package (0x05) { 100, 1000, 0, 0x00, 0 },
            Package (0x05) { 75, 750, 0, 0x1E, 0 },
            Package (0x05) { 50, 500, 0, 0x1C, 0 },
            Package (0x05) { 25, 250, 0, 0x1A, 0 }
        })
        Name (_TSD, Package (0x01)
        {
            Package (0x05) { 0x05, 0x00, 0x00, 0xFD, 0x02 }
        })
    }
    Scope (\_PR.CPU2)
    {
        Method (_PPC, 0, NotSerialized) { Return (\_PR.CPU0._PPC) }
        Name (_PCT, Package (0x02)
        {
            ResourceTemplate () { Register (FFixedHW, 16, 0, 0x0199, 0) },
            ResourceTemplate () { Register (FFixedHW, 16, 0, 0x0198, 0) }
        })
        Name (_PSS, Package (0x04)
        {
            Package (0x06) { 3400, 84000, 10, 10, 0x2200, 0x2200 },
            Package (0x06) { 2800, 62000, 10, 10, 0x1C00, 0x1C00 },
            Package (0x06) { 2200, 44000, 10, 10, 0x1600, 0x1600 },
            Package (0x06) { 1600, 28000, 10, 10, 0x1000, 0x1000 }
        })
        Name (_PSD, Package (0x01)
        {
            Package (0x05) { 0x05, 0x00, 0x00, 0xFC, 0x04 }
        })
        Name (_TPC, 0x00)
        Name (_PTC, Package (0x02)
        {
            ResourceTemplate () { Register (FFixedHW, 5, 0, 0x019A, 0) },
            ResourceTemplate () { Register (FFixedHW, 0, 0, 0, 0) }
        })
        Name (_TSS, Package (0x04)
        {
            Package (0x05) { 100, 1000, 0, 0x00, 0 },
            Package (0x05) { 75, 750, 0, 0x1E, 0 },
            Package (0x05) { 50, 500, 0, 0x1C, 0 },
            Package (0x05) { 25, 250, 0, 0x1A, 0 }
        })
        Name (_TSD, Package (0x01)
        {
            Package (0x05) { 0x05, 0x00, 0x01, 0xFD, 0x02 }
        })
    }
    Scope (\_PR.CPU3)
    {
        Method (_PPC, 0, NotSerialized) { Return (\_PR.CPU0._PPC) }
        Name (_PCT, Package (0x02)
        {
            ResourceTemplate () { Register (FFixedHW, 16, 0, 0x0199, 0) },
            ResourceTemplate () { Register (FFixedHW, 16, 0, 0x0198, 0) }
        })
        Name (_PSS, Package (0x04)
        {
            Package (0x06) { 3400, 84000, 10, 10, 0x2200, 0x2200 },
            Package (0x06) { 2800, 62000, 10, 10, 0x1C00, 0x1C00 },
            Package (0x06) { 2200, 44000, 10, 10, 0x1600, 0x1600 },
            Package (0x06) { 1600, 28000, 10, 10, 0x1000, 0x1000 }
        })
        Name (_PSD, Package (0x01)
        {
            Package (0x05) { 0x05, 0x00, 0x00, 0xFC, 0x04 }
        })
        Name (_TPC, 0x00)
        Name (_PTC, Package (0x02)
        {
            ResourceTemplate () { Register (FFixedHW, 5, 0, 0x019A, 0) },
            ResourceTemplate () { Register (FFixedHW, 0, 0, 0, 0) }
        })
        Name (_TSS, Package (0x04)
        {
            Package (0x05) { 100, 1000, 0, 0x00, 0 },
            Package (0x05) { 75, 750, 0, 0x1E, 0 },
            Package (0x05) { 50, 500, 0, 0x1C, 0 },
            Package (0x05) { 25, 250, 0, 0x1A, 0 }
        })
        Name (_TSD, Package (0x01)
        {
            Package (0x05) { 0x05, 0x00, 0x01, 0xFD, 0x02 }
        })
    }
}
