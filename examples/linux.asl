// A machine of four processors, three small ones that share their performance state by software and a large one of its own. Its
// header is that of the DSDT of QEMU's machines with a higher revision, so that a Linux in one takes this table in its place.
DefinitionBlock ("", "DSDT", 2, "BOCHS ", "BXPC    ", 0x00000002)
{
    Scope (\_SB)
    {
        Device (CPU0)
        {
            Name (_HID, "ACPI0007")
            Name (_UID, 0)
            Name (_PCT, Package (2)
            {
                ResourceTemplate () { Register (SystemIO, 8, 0, 0x0880, 1) },
                ResourceTemplate () { Register (SystemIO, 8, 0, 0x0881, 1) }
            })
            Name (_PSS, Package (4)
            {
                Package (6) { 1600, 2400, 10, 10, 0x10, 0x10 },
                Package (6) { 1400, 1900, 10, 10, 0x0E, 0x0E },
                Package (6) { 1100, 1300, 10, 10, 0x0B, 0x0B },
                Package (6) { 800, 800, 10, 10, 0x08, 0x08 }
            })
            Name (_PSD, Package (1) { Package (5) { 5, 0, 0, 0xFC, 3 } })
            Name (_PPC, 0)
        }
        Device (CPU1)
        {
            Name (_HID, "ACPI0007")
            Name (_UID, 1)
            Name (_PCT, Package (2)
            {
                ResourceTemplate () { Register (SystemIO, 8, 0, 0x0880, 1) },
                ResourceTemplate () { Register (SystemIO, 8, 0, 0x0881, 1) }
            })
            Name (_PSS, Package (4)
            {
                Package (6) { 1600, 2400, 10, 10, 0x10, 0x10 },
                Package (6) { 1400, 1900, 10, 10, 0x0E, 0x0E },
                Package (6) { 1100, 1300, 10, 10, 0x0B, 0x0B },
                Package (6) { 800, 800, 10, 10, 0x08, 0x08 }
            })
            Name (_PSD, Package (1) { Package (5) { 5, 0, 0, 0xFC, 3 } })
            Name (_PPC, 0)
        }
        Device (CPU2)
        {
            Name (_HID, "ACPI0007")
            Name (_UID, 2)
            Name (_PCT, Package (2)
            {
                ResourceTemplate () { Register (SystemIO, 8, 0, 0x0880, 1) },
                ResourceTemplate () { Register (SystemIO, 8, 0, 0x0881, 1) }
            })
            Name (_PSS, Package (4)
            {
                Package (6) { 1600, 2400, 10, 10, 0x10, 0x10 },
                Package (6) { 1400, 1900, 10, 10, 0x0E, 0x0E },
                Package (6) { 1100, 1300, 10, 10, 0x0B, 0x0B },
                Package (6) { 800, 800, 10, 10, 0x08, 0x08 }
            })
            Name (_PSD, Package (1) { Package (5) { 5, 0, 0, 0xFC, 3 } })
            Name (_PPC, 0)
        }
        Device (CPU3)
        {
            Name (_HID, "ACPI0007")
            Name (_UID, 3)
            Name (_PCT, Package (2)
            {
                ResourceTemplate () { Register (SystemIO, 16, 0, 0x0884, 2) },
                ResourceTemplate () { Register (SystemIO, 16, 0, 0x0886, 2) }
            })
            Name (_PSS, Package (3)
            {
                Package (6) { 2800, 9000, 10, 10, 0x1C, 0x1C },
                Package (6) { 2100, 5500, 10, 10, 0x15, 0x15 },
                Package (6) { 1400, 2900, 10, 10, 0x0E, 0x0E }
            })
            Name (_PSD, Package (1) { Package (5) { 5, 0, 1, 0xFC, 1 } })
            Name (_PPC, 0)
        }
    }
}
