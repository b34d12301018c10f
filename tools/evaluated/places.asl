// A DSDT of processors and containers in every place: terms of processors in a container in \_PR, devices between, code
// outside of methods around devices, a container and a processor by their _CID, one at the root, short names.
DefinitionBlock ("", "DSDT", 2, "POWER ", "PLACES  ", 0x00000001)
{
    Name (CNTS, 0x02)
    Scope (\_PR)
    {
        Device (SYS0)
        {
            Name (_HID, "ACPI0010")
            Name (_UID, "system")
            Processor (CPU0, 0x10, 0x00000410, 0x06)
            {
                Name (_HID, EisaId ("PNP0C0F"))
                Name (_PSS, Package (0x02)
                {
                    Package (0x06) { 2400, 35000, 10, 10, 0x00, 0x00 },
                    Package (0x06) { 1600, 20000, 10, 10, 0x01, 0x01 }
                })
                Name (_PCT, Package (0x02)
                {
                    ResourceTemplate () { Register (FFixedHW, 64, 0, 0x199, 4) },
                    ResourceTemplate () { Register (FFixedHW, 64, 0, 0x198, 4) }
                })
            }
            Device (MODL)
            {
                Name (_ADR, 0x07)
                Processor (CP_1, 0x11, 0x00000000, 0x00) {}
            }
            If (CNTS > 0x01) { Processor (CPU2, 0x12, 0x00000000, 0x00) { Name (_TPC, 0x01) } }
            If (CNTS > 0x02) { Processor (CPU3, 0x13, 0x00000000, 0x00) {} }
        }
    }
    Scope (\_SB)
    {
        Device (PCI0)
        {
            Name (_HID, EisaId ("PNP0A08"))
            Name (_CID, EisaId ("PNP0A03"))
        }
        If (CNTS == 0x02)
        {
            Device (CLU)
            {
                Name (_HID, EisaId ("PNP0A05"))
                Name (_CID, Package (0x02) { EisaId ("PNP0A06"), "ACPI0010" })
                Name (_UID, 0x05)
                Name (_LPI, Package (0x04)
                {
                    0x00, 0x01, 0x01,
                    Package (0x0A)
                    {
                        2000, 600, 0x01, 0x00, 0x00, 0x00,
                        0x00100000,
                        ResourceTemplate () { Register (SystemMemory, 0, 0, 0, 0) },
                        ResourceTemplate () { Register (SystemMemory, 0, 0, 0, 0) },
                        "Off"
                    }
                })
                Device (C_)
                {
                    Name (_HID, "XYZ00001")
                    Name (_CID, "ACPI0007")
                    Name (_PPC, 0x00)
                }
            }
        }
        Else
        {
            Device (CLU1) { Name (_HID, "ACPI0010") }
        }
    }
    Device (ROOT)
    {
        Name (_HID, "ACPI0007")
        Name (_UID, 0x06)
    }
}
