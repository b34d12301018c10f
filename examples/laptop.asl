// The DSDT of an AMD laptop: four threads of two cores with performance and C states. The threads of a core share their
// performance state and their second C state by hardware, and their third C state by software.
DefinitionBlock ("", "DSDT", 2, "POWER ", "LAPTOP  ", 0x00000001)
{
    Name (PPCV, 0x00)
    Scope (\_SB)
    {
        Device (PLTF)
        {
            Name (_HID, "ACPI0010")
            Name (_CID, EisaId ("PNP0A05"))
            Name (_UID, 0x01)
            Device (C000)
            {
                Name (_HID, "ACPI0007")
                Name (_UID, 0x00)
                Name (_PCT, Package (0x02)
                {
                    ResourceTemplate () { Register (FFixedHW, 64, 0, 0x00000000C0010062, 0) },
                    ResourceTemplate () { Register (FFixedHW, 64, 0, 0x00000000C0010063, 0) }
                })
                Name (_PSS, Package (0x03)
                {
                    Package (0x06) { 0x00000AF0, 0x00000F78, 0x00000001, 0x00000001, 0x00000000, 0x00000000 },
                    Package (0x06) { 0x000007D0, 0x000008C4, 0x00000001, 0x00000001, 0x00000001, 0x00000001 },
                    Package (0x06) { 0x00000578, 0x00000546, 0x00000001, 0x00000001, 0x00000002, 0x00000002 }
                })
                Name (_PSD, Package (0x01)
                {
                    Package (0x05) { 0x05, 0x00, 0x00000000, 0x000000FE, 0x00000002 }
                })
                Method (_PPC, 0, NotSerialized) { Return (PPCV) }
                Name (_CST, Package (0x04)
                {
                    0x03,
                    Package (0x04)
                    {
                        ResourceTemplate () { Register (FFixedHW, 2, 2, 0, 0) },
                        1, 1, 0
                    },
                    Package (0x04)
                    {
                        ResourceTemplate () { Register (SystemIO, 8, 0, 0x0414, 1) },
                        2, 18, 0
                    },
                    Package (0x04)
                    {
                        ResourceTemplate () { Register (SystemIO, 8, 0, 0x0415, 1) },
                        3, 350, 0
                    }
                })
                Name (_CSD, Package (0x02)
                {
                    Package (0x06) { 0x06, 0x00, 0x00000000, 0x000000FE, 0x00000002, 0x00000001 },
                    Package (0x06) { 0x06, 0x00, 0x00000000, 0x000000FC, 0x00000002, 0x00000002 }
                })
            }
            Device (C001)
            {
                Name (_HID, "ACPI0007")
                Name (_UID, 0x01)
                Name (_PCT, Package (0x02)
                {
                    ResourceTemplate () { Register (FFixedHW, 64, 0, 0x00000000C0010062, 0) },
                    ResourceTemplate () { Register (FFixedHW, 64, 0, 0x00000000C0010063, 0) }
                })
                Name (_PSS, Package (0x03)
                {
                    Package (0x06) { 0x00000AF0, 0x00000F78, 0x00000001, 0x00000001, 0x00000000, 0x00000000 },
                    Package (0x06) { 0x000007D0, 0x000008C4, 0x00000001, 0x00000001, 0x00000001, 0x00000001 },
                    Package (0x06) { 0x00000578, 0x00000546, 0x00000001, 0x00000001, 0x00000002, 0x00000002 }
                })
                Name (_PSD, Package (0x01)
                {
                    Package (0x05) { 0x05, 0x00, 0x00000000, 0x000000FE, 0x00000002 }
                })
                Method (_PPC, 0, NotSerialized) { Return (PPCV) }
                Name (_CST, Package (0x04)
                {
                    0x03,
                    Package (0x04)
                    {
                        ResourceTemplate () { Register (FFixedHW, 2, 2, 0, 0) },
                        1, 1, 0
                    },
                    Package (0x04)
                    {
                        ResourceTemplate () { Register (SystemIO, 8, 0, 0x0414, 1) },
                        2, 18, 0
                    },
                    Package (0x04)
                    {
                        ResourceTemplate () { Register (SystemIO, 8, 0, 0x0415, 1) },
                        3, 350, 0
                    }
                })
                Name (_CSD, Package (0x02)
                {
                    Package (0x06) { 0x06, 0x00, 0x00000000, 0x000000FE, 0x00000002, 0x00000001 },
                    Package (0x06) { 0x06, 0x00, 0x00000000, 0x000000FC, 0x00000002, 0x00000002 }
                })
            }
            Device (C002)
            {
                Name (_HID, "ACPI0007")
                Name (_UID, 0x02)
                Name (_PCT, Package (0x02)
                {
                    ResourceTemplate () { Register (FFixedHW, 64, 0, 0x00000000C0010062, 0) },
                    ResourceTemplate () { Register (FFixedHW, 64, 0, 0x00000000C0010063, 0) }
                })
                Name (_PSS, Package (0x03)
                {
                    Package (0x06) { 0x00000AF0, 0x00000F78, 0x00000001, 0x00000001, 0x00000000, 0x00000000 },
                    Package (0x06) { 0x000007D0, 0x000008C4, 0x00000001, 0x00000001, 0x00000001, 0x00000001 },
                    Package (0x06) { 0x00000578, 0x00000546, 0x00000001, 0x00000001, 0x00000002, 0x00000002 }
                })
                Name (_PSD, Package (0x01)
                {
                    Package (0x05) { 0x05, 0x00, 0x00000001, 0x000000FE, 0x00000002 }
                })
                Method (_PPC, 0, NotSerialized) { Return (PPCV) }
                Name (_CST, Package (0x04)
                {
                    0x03,
                    Package (0x04)
                    {
                        ResourceTemplate () { Register (FFixedHW, 2, 2, 0, 0) },
                        1, 1, 0
                    },
                    Package (0x04)
                    {
                        ResourceTemplate () { Register (SystemIO, 8, 0, 0x0414, 1) },
                        2, 18, 0
                    },
                    Package (0x04)
                    {
                        ResourceTemplate () { Register (SystemIO, 8, 0, 0x0415, 1) },
                        3, 350, 0
                    }
                })
                Name (_CSD, Package (0x02)
                {
                    Package (0x06) { 0x06, 0x00, 0x00000001, 0x000000FE, 0x00000002, 0x00000001 },
                    Package (0x06) { 0x06, 0x00, 0x00000001, 0x000000FC, 0x00000002, 0x00000002 }
                })
            }
            Device (C003)
            {
                Name (_HID, "ACPI0007")
                Name (_UID, 0x03)
                Name (_PCT, Package (0x02)
                {
                    ResourceTemplate () { Register (FFixedHW, 64, 0, 0x00000000C0010062, 0) },
                    ResourceTemplate () { Register (FFixedHW, 64, 0, 0x00000000C0010063, 0) }
                })
                Name (_PSS, Package (0x03)
                {
                    Package (0x06) { 0x00000AF0, 0x00000F78, 0x00000001, 0x00000001, 0x00000000, 0x00000000 },
                    Package (0x06) { 0x000007D0, 0x000008C4, 0x00000001, 0x00000001, 0x00000001, 0x00000001 },
                    Package (0x06) { 0x00000578, 0x00000546, 0x00000001, 0x00000001, 0x00000002, 0x00000002 }
                })
                Name (_PSD, Package (0x01)
                {
                    Package (0x05) { 0x05, 0x00, 0x00000001, 0x000000FE, 0x00000002 }
                })
                Method (_PPC, 0, NotSerialized) { Return (PPCV) }
                Name (_CST, Package (0x04)
                {
                    0x03,
                    Package (0x04)
                    {
                        ResourceTemplate () { Register (FFixedHW, 2, 2, 0, 0) },
                        1, 1, 0
                    },
                    Package (0x04)
                    {
                        ResourceTemplate () { Register (SystemIO, 8, 0, 0x0414, 1) },
                        2, 18, 0
                    },
                    Package (0x04)
                    {
                        ResourceTemplate () { Register (SystemIO, 8, 0, 0x0415, 1) },
                        3, 350, 0
                    }
                })
                Name (_CSD, Package (0x02)
                {
                    Package (0x06) { 0x06, 0x00, 0x00000001, 0x000000FE, 0x00000002, 0x00000001 },
                    Package (0x06) { 0x06, 0x00, 0x00000001, 0x000000FC, 0x00000002, 0x00000002 }
                })
            }
        }
    }
}
