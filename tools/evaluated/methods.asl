// A DSDT as many machines have it: a region whose offset is computed, methods that read it, aliases, a method that fails,
// one that doesn't end, one that returns nothing.
DefinitionBlock ("", "DSDT", 2, "POWER ", "METHODS ", 0x00000001)
{
    Name (BASE, 0xFE000000)
    OperationRegion (NVSA, SystemMemory, BASE + 0x0100, 0x10)
    Field (NVSA, ByteAcc, NoLock, Preserve)
    {
        LIMT, 8,
        DEEP, 8
    }
    Scope (\_SB)
    {
        Device (CPU0)
        {
            Method (_HID, 0, NotSerialized) { Return ("ACPI0007") }
            Name (_UID, 0x00)
            Method (_STA, 0, NotSerialized) { Return (0x0F) }
            Method (_CST, 0, NotSerialized)
            {
                If (DEEP) { Return (Package (0x01) { 0x00 }) }
                Return (Package (0x03)
                {
                    0x02,
                    Package (0x04) { ResourceTemplate () { Register (FFixedHW, 1, 2, 0, 1) }, 1, 1, 1000 },
                    Package (0x04) { ResourceTemplate () { Register (SystemIO, 8, 0, 0x414, 1) }, 2, 100, 500 }
                })
            }
            Name (STAT, Package (0x03) {})
            Method (_PSS, 0, Serialized)
            {
                Local0 = 0
                While (Local0 < 3)
                {
                    STAT [Local0] = Package (0x06) { 0, 0, 10, 10, 0, 0 }
                    DerefOf (STAT [Local0]) [0] = 2400 - (Local0 * 400)
                    DerefOf (STAT [Local0]) [4] = Local0 + 0x10
                    Local0++
                }
                Return (STAT)
            }
            Name (_PCT, Package (0x02)
            {
                ResourceTemplate () { Register (SystemIO, 8, 0, 0xB2, 1) },
                ResourceTemplate () { Register (SystemIO, 8, 0, 0xB3, 1) }
            })
            Method (_PPC, 0, NotSerialized) { Return (LIMT) }
            Name (_PSD, Package (0x01) { Package (0x05) { 5, 0, 0, 0xFC, 2 } })
        }
        Device (CPU1)
        {
            Name (_HID, "ACPI0007")
            Name (_UID, 0x01)
            Alias (\_SB.CPU0._CST, _CST)
            Alias (\_SB.CPU0._PSS, _PSS)
            Alias (\_SB.CPU0._PCT, _PCT)
            Alias (\_SB.CPU0._PSD, _PSD)
            Method (_PPC, 0, NotSerialized)
            {
                Local0 = Buffer (0x02) {}
                Return (DerefOf (Local0 [0x02]))
            }
            Method (_TPC, 0, NotSerialized)
            {
                While (LIMT == 0) {}
                Return (0x00)
            }
            Method (_TSS, 0, NotSerialized) { Local0 = LIMT }
        }
    }
}
