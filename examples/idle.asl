// An SSDT with a cluster of processors and their low power idle states.
DefinitionBlock ("", "SSDT", 2, "POWER ", "IDLE    ", 0x00000001)
{
    Scope (\_SB)
    {
        Device (CLU0)
        {
            Name (_HID, "ACPI0010")
            Name (_UID, Zero)
            Name (_LPI, Package (0x04)
            {
                0x00, 0x01, 0x01,
                Package (0x0A)
                {
                    5000, 1000, 0x01, 0x00, 0x00, 0x00,
                    0x10000,
                    ResourceTemplate () { Register (SystemMemory, 0, 0, 0, 0) },
                    ResourceTemplate () { Register (SystemMemory, 0, 0, 0, 0) },
                    "CluOff"
                }
            })
            Device (CPU0)
            {
                Name (_HID, "ACPI0007")
                Name (_UID, Zero)
                Name (_LPI, Package (0x05)
                {
                    0x00, 0x00, 0x02,
                    Package (0x0A)
                    {
                        1, 1, 0x01, 0x00, 0x00, 0x00,
                        ResourceTemplate () { Register (FFixedHW, 32, 0, 0x00000000FFFFFFFF, 3) },
                        ResourceTemplate () { Register (SystemMemory, 0, 0, 0, 0) },
                        ResourceTemplate () { Register (SystemMemory, 0, 0, 0, 0) },
                        "Wfi"
                    },
                    Package (0x0A)
                    {
                        500, 200, 0x01, 0x01, 0x00, 0x01,
                        ResourceTemplate () { Register (FFixedHW, 32, 0, 0x0000000000010000, 3) },
                        ResourceTemplate () { Register (SystemMemory, 0, 0, 0, 0) },
                        ResourceTemplate () { Register (SystemMemory, 0, 0, 0, 0) },
                        "CpuOff"
                    }
                })
            }
            Device (CPU1)
            {
                Name (_HID, "ACPI0007")
                Name (_UID, One)
                Method (_LPI, 0, NotSerialized)
                {
                    Return (\_SB.CLU0.CPU0._LPI)
                }
            }
        }
    }
}
