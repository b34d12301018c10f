// The DSDT of an Arm server: a system, clusters and processors with low power idle states on each of the three levels,
// and continuous performance control by way of a platform communications channel.
DefinitionBlock ("", "DSDT", 2, "POWER ", "SERVER  ", 0x00000001)
{
    Scope (\_SB)
    {
        Device (SYS0)
        {
            Name (_HID, "ACPI0010")
            Name (_UID, Zero)
            Name (_LPI, Package (0x04)
            {
                0x00, 0x02, 0x01,
                Package (0x0A)
                {
                    10000, 2500, 0x01, 0x01, 0x00, 0x00,
                    0x02000000,
                    ResourceTemplate () { Register (SystemMemory, 0, 0, 0, 0) },
                    ResourceTemplate () { Register (SystemMemory, 0, 0, 0, 0) },
                    "SysOff"
                }
            })
            Device (CLU0)
            {
                Name (_HID, "ACPI0010")
                Name (_UID, One)
                Name (_LPI, Package (0x05)
                {
                    0x00, 0x01, 0x02,
                    Package (0x0A)
                    {
                        2000, 600, 0x01, 0x01, 0x00, 0x00,
                        0x00000010,
                        ResourceTemplate () { Register (SystemMemory, 0, 0, 0, 0) },
                        ResourceTemplate () { Register (SystemMemory, 0, 0, 0, 0) },
                        "CluRet"
                    },
                    Package (0x0A)
                    {
                        5000, 1000, 0x01, 0x01, 0x00, 0x01,
                        0x01000000,
                        ResourceTemplate () { Register (SystemMemory, 0, 0, 0, 0) },
                        ResourceTemplate () { Register (SystemMemory, 0, 0, 0, 0) },
                        "CluOff"
                    }
                })
                Device (CPU0)
                {
                    Name (_HID, "ACPI0007")
                    Name (_UID, 0x00)
                    Name (_LPI, Package (0x06)
                    {
                        0x00, 0x00, 0x03,
                        Package (0x0A)
                        {
                            1, 1, 0x01, 0x00, 0x00, 0x00,
                            ResourceTemplate () { Register (FFixedHW, 32, 0, 0x00000000FFFFFFFF, 3) },
                            ResourceTemplate () { Register (SystemMemory, 0, 0, 0, 0) },
                            ResourceTemplate () { Register (SystemMemory, 0, 0, 0, 0) },
                            "Wfi"
                        },
                        Package (0x0A)
                        {
                            150, 40, 0x01, 0x01, 0x00, 0x01,
                            ResourceTemplate () { Register (FFixedHW, 32, 0, 0x0000000000000001, 3) },
                            ResourceTemplate () { Register (SystemMemory, 0, 0, 0, 0) },
                            ResourceTemplate () { Register (SystemMemory, 0, 0, 0, 0) },
                            "CpuRet"
                        },
                        Package (0x0A)
                        {
                            500, 200, 0x01, 0x01, 0x00, 0x02,
                            ResourceTemplate () { Register (FFixedHW, 32, 0, 0x0000000000010000, 3) },
                            ResourceTemplate () { Register (SystemMemory, 0, 0, 0, 0) },
                            ResourceTemplate () { Register (SystemMemory, 0, 0, 0, 0) },
                            "CpuOff"
                        }
                    })
                    Name (_PSD, Package (0x01)
                    {
                        Package (0x05) { 0x05, 0x00, 0x00, 0xFD, 0x02 }
                    })
                    Name (_CPC, Package (0x17)
                    {
                        23, 3, 300, 260, 150, 60,
                        ResourceTemplate () { Register (SystemMemory, 0, 0, 0, 0) },
                        ResourceTemplate () { Register (PCC, 32, 0, 0x00, 1) },
                        ResourceTemplate () { Register (PCC, 32, 0, 0x04, 1) },
                        ResourceTemplate () { Register (PCC, 32, 0, 0x08, 1) },
                        ResourceTemplate () { Register (SystemMemory, 0, 0, 0, 0) },
                        ResourceTemplate () { Register (SystemMemory, 0, 0, 0, 0) },
                        ResourceTemplate () { Register (SystemMemory, 0, 0, 0, 0) },
                        ResourceTemplate () { Register (FFixedHW, 64, 0, 0x01, 4) },
                        ResourceTemplate () { Register (FFixedHW, 64, 0, 0x00, 4) },
                        ResourceTemplate () { Register (PCC, 32, 0, 0x0C, 1) },
                        ResourceTemplate () { Register (SystemMemory, 0, 0, 0, 0) },
                        ResourceTemplate () { Register (SystemMemory, 0, 0, 0, 0) },
                        ResourceTemplate () { Register (SystemMemory, 0, 0, 0, 0) },
                        ResourceTemplate () { Register (SystemMemory, 0, 0, 0, 0) },
                        260, 600, 2600
                    })
                }
                Device (CPU1)
                {
                    Name (_HID, "ACPI0007")
                    Name (_UID, 0x01)
                    Name (_LPI, Package (0x06)
                    {
                        0x00, 0x00, 0x03,
                        Package (0x0A)
                        {
                            1, 1, 0x01, 0x00, 0x00, 0x00,
                            ResourceTemplate () { Register (FFixedHW, 32, 0, 0x00000000FFFFFFFF, 3) },
                            ResourceTemplate () { Register (SystemMemory, 0, 0, 0, 0) },
                            ResourceTemplate () { Register (SystemMemory, 0, 0, 0, 0) },
                            "Wfi"
                        },
                        Package (0x0A)
                        {
                            150, 40, 0x01, 0x01, 0x00, 0x01,
                            ResourceTemplate () { Register (FFixedHW, 32, 0, 0x0000000000000001, 3) },
                            ResourceTemplate () { Register (SystemMemory, 0, 0, 0, 0) },
                            ResourceTemplate () { Register (SystemMemory, 0, 0, 0, 0) },
                            "CpuRet"
                        },
                        Package (0x0A)
                        {
                            500, 200, 0x01, 0x01, 0x00, 0x02,
                            ResourceTemplate () { Register (FFixedHW, 32, 0, 0x0000000000010000, 3) },
                            ResourceTemplate () { Register (SystemMemory, 0, 0, 0, 0) },
                            ResourceTemplate () { Register (SystemMemory, 0, 0, 0, 0) },
                            "CpuOff"
                        }
                    })
                    Name (_PSD, Package (0x01)
                    {
                        Package (0x05) { 0x05, 0x00, 0x00, 0xFD, 0x02 }
                    })
                    Name (_CPC, Package (0x17)
                    {
                        23, 3, 300, 260, 150, 60,
                        ResourceTemplate () { Register (SystemMemory, 0, 0, 0, 0) },
                        ResourceTemplate () { Register (PCC, 32, 0, 0x00, 1) },
                        ResourceTemplate () { Register (PCC, 32, 0, 0x04, 1) },
                        ResourceTemplate () { Register (PCC, 32, 0, 0x08, 1) },
                        ResourceTemplate () { Register (SystemMemory, 0, 0, 0, 0) },
                        ResourceTemplate () { Register (SystemMemory, 0, 0, 0, 0) },
                        ResourceTemplate () { Register (SystemMemory, 0, 0, 0, 0) },
                        ResourceTemplate () { Register (FFixedHW, 64, 0, 0x01, 4) },
                        ResourceTemplate () { Register (FFixedHW, 64, 0, 0x00, 4) },
                        ResourceTemplate () { Register (PCC, 32, 0, 0x0C, 1) },
                        ResourceTemplate () { Register (SystemMemory, 0, 0, 0, 0) },
                        ResourceTemplate () { Register (SystemMemory, 0, 0, 0, 0) },
                        ResourceTemplate () { Register (SystemMemory, 0, 0, 0, 0) },
                        ResourceTemplate () { Register (SystemMemory, 0, 0, 0, 0) },
                        260, 600, 2600
                    })
                }
            }
            Device (CLU1)
            {
                Name (_HID, "ACPI0010")
                Name (_UID, 0x02)
                Name (_LPI, Package (0x05)
                {
                    0x00, 0x01, 0x02,
                    Package (0x0A)
                    {
                        2000, 600, 0x01, 0x01, 0x00, 0x00,
                        0x00000010,
                        ResourceTemplate () { Register (SystemMemory, 0, 0, 0, 0) },
                        ResourceTemplate () { Register (SystemMemory, 0, 0, 0, 0) },
                        "CluRet"
                    },
                    Package (0x0A)
                    {
                        5000, 1000, 0x01, 0x01, 0x00, 0x01,
                        0x01000000,
                        ResourceTemplate () { Register (SystemMemory, 0, 0, 0, 0) },
                        ResourceTemplate () { Register (SystemMemory, 0, 0, 0, 0) },
                        "CluOff"
                    }
                })
                Device (CPU2)
                {
                    Name (_HID, "ACPI0007")
                    Name (_UID, 0x02)
                    Name (_LPI, Package (0x06)
                    {
                        0x00, 0x00, 0x03,
                        Package (0x0A)
                        {
                            1, 1, 0x01, 0x00, 0x00, 0x00,
                            ResourceTemplate () { Register (FFixedHW, 32, 0, 0x00000000FFFFFFFF, 3) },
                            ResourceTemplate () { Register (SystemMemory, 0, 0, 0, 0) },
                            ResourceTemplate () { Register (SystemMemory, 0, 0, 0, 0) },
                            "Wfi"
                        },
                        Package (0x0A)
                        {
                            150, 40, 0x01, 0x01, 0x00, 0x01,
                            ResourceTemplate () { Register (FFixedHW, 32, 0, 0x0000000000000001, 3) },
                            ResourceTemplate () { Register (SystemMemory, 0, 0, 0, 0) },
                            ResourceTemplate () { Register (SystemMemory, 0, 0, 0, 0) },
                            "CpuRet"
                        },
                        Package (0x0A)
                        {
                            500, 200, 0x01, 0x01, 0x00, 0x02,
                            ResourceTemplate () { Register (FFixedHW, 32, 0, 0x0000000000010000, 3) },
                            ResourceTemplate () { Register (SystemMemory, 0, 0, 0, 0) },
                            ResourceTemplate () { Register (SystemMemory, 0, 0, 0, 0) },
                            "CpuOff"
                        }
                    })
                    Name (_PSD, Package (0x01)
                    {
                        Package (0x05) { 0x05, 0x00, 0x01, 0xFD, 0x02 }
                    })
                    Name (_CPC, Package (0x17)
                    {
                        23, 3, 300, 260, 150, 60,
                        ResourceTemplate () { Register (SystemMemory, 0, 0, 0, 0) },
                        ResourceTemplate () { Register (PCC, 32, 0, 0x00, 1) },
                        ResourceTemplate () { Register (PCC, 32, 0, 0x04, 1) },
                        ResourceTemplate () { Register (PCC, 32, 0, 0x08, 1) },
                        ResourceTemplate () { Register (SystemMemory, 0, 0, 0, 0) },
                        ResourceTemplate () { Register (SystemMemory, 0, 0, 0, 0) },
                        ResourceTemplate () { Register (SystemMemory, 0, 0, 0, 0) },
                        ResourceTemplate () { Register (FFixedHW, 64, 0, 0x01, 4) },
                        ResourceTemplate () { Register (FFixedHW, 64, 0, 0x00, 4) },
                        ResourceTemplate () { Register (PCC, 32, 0, 0x0C, 1) },
                        ResourceTemplate () { Register (SystemMemory, 0, 0, 0, 0) },
                        ResourceTemplate () { Register (SystemMemory, 0, 0, 0, 0) },
                        ResourceTemplate () { Register (SystemMemory, 0, 0, 0, 0) },
                        ResourceTemplate () { Register (SystemMemory, 0, 0, 0, 0) },
                        260, 600, 2600
                    })
                }
                Device (CPU3)
                {
                    Name (_HID, "ACPI0007")
                    Name (_UID, 0x03)
                    Name (_LPI, Package (0x06)
                    {
                        0x00, 0x00, 0x03,
                        Package (0x0A)
                        {
                            1, 1, 0x01, 0x00, 0x00, 0x00,
                            ResourceTemplate () { Register (FFixedHW, 32, 0, 0x00000000FFFFFFFF, 3) },
                            ResourceTemplate () { Register (SystemMemory, 0, 0, 0, 0) },
                            ResourceTemplate () { Register (SystemMemory, 0, 0, 0, 0) },
                            "Wfi"
                        },
                        Package (0x0A)
                        {
                            150, 40, 0x01, 0x01, 0x00, 0x01,
                            ResourceTemplate () { Register (FFixedHW, 32, 0, 0x0000000000000001, 3) },
                            ResourceTemplate () { Register (SystemMemory, 0, 0, 0, 0) },
                            ResourceTemplate () { Register (SystemMemory, 0, 0, 0, 0) },
                            "CpuRet"
                        },
                        Package (0x0A)
                        {
                            500, 200, 0x01, 0x01, 0x00, 0x02,
                            ResourceTemplate () { Register (FFixedHW, 32, 0, 0x0000000000010000, 3) },
                            ResourceTemplate () { Register (SystemMemory, 0, 0, 0, 0) },
                            ResourceTemplate () { Register (SystemMemory, 0, 0, 0, 0) },
                            "CpuOff"
                        }
                    })
                    Name (_PSD, Package (0x01)
                    {
                        Package (0x05) { 0x05, 0x00, 0x01, 0xFD, 0x02 }
                    })
                    Name (_CPC, Package (0x17)
                    {
                        23, 3, 300, 260, 150, 60,
                        ResourceTemplate () { Register (SystemMemory, 0, 0, 0, 0) },
                        ResourceTemplate () { Register (PCC, 32, 0, 0x00, 1) },
                        ResourceTemplate () { Register (PCC, 32, 0, 0x04, 1) },
                        ResourceTemplate () { Register (PCC, 32, 0, 0x08, 1) },
                        ResourceTemplate () { Register (SystemMemory, 0, 0, 0, 0) },
                        ResourceTemplate () { Register (SystemMemory, 0, 0, 0, 0) },
                        ResourceTemplate () { Register (SystemMemory, 0, 0, 0, 0) },
                        ResourceTemplate () { Register (FFixedHW, 64, 0, 0x01, 4) },
                        ResourceTemplate () { Register (FFixedHW, 64, 0, 0x00, 4) },
                        ResourceTemplate () { Register (PCC, 32, 0, 0x0C, 1) },
                        ResourceTemplate () { Register (SystemMemory, 0, 0, 0, 0) },
                        ResourceTemplate () { Register (SystemMemory, 0, 0, 0, 0) },
                        ResourceTemplate () { Register (SystemMemory, 0, 0, 0, 0) },
                        ResourceTemplate () { Register (SystemMemory, 0, 0, 0, 0) },
                        260, 600, 2600
                    })
                }
            }
        }
    }
}
