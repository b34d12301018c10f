// A DSDT whose processors are devices, with methods, a mutex, an event, regions and fields beside them.
DefinitionBlock ("", "DSDT", 2, "POWER ", "MODERN  ", 0x00000001)
{
    External (_SB.PCI0, DeviceObj)
    External (FLAG, IntObj)
    Scope (\_SB)
    {
        Mutex (MTXP, 0x00)
        Event (EVNT)
        OperationRegion (PWRG, SystemMemory, 0xFE0B0000, 0x1000)
        Field (PWRG, DWordAcc, NoLock, Preserve)
        {
            CTRL, 32,
            STAT, 32
        }
        OperationRegion (IOPR, SystemIO, 0x70, 0x02)
        Field (IOPR, ByteAcc, NoLock, Preserve)
        {
            INDX, 8,
            DATA, 8
        }
        IndexField (INDX, DATA, ByteAcc, NoLock, Preserve)
        {
            IDXA, 8,
            IDXB, 8
        }
        PowerResource (PRST, 0x00, 0x0000)
        {
            Method (_STA, 0, NotSerialized) { Return (One) }
            Method (_ON, 0, NotSerialized) { CTRL = One }
            Method (_OFF, 0, NotSerialized) { CTRL = Zero }
        }
        Device (CPU0)
        {
            Name (_HID, "ACPI0007")
            Name (_UID, Zero)
            Method (_STA, 0, NotSerialized)
            {
                If ((STAT & One)) { Return (0x0F) }
                Return (Zero)
            }
            Name (_CST, Package (0x03)
            {
                0x02,
                Package (0x04)
                {
                    ResourceTemplate () { Register (FFixedHW, 1, 2, 0, 1) },
                    1, 1, 1000
                },
                Package (0x04)
                {
                    ResourceTemplate () { Register (SystemIO, 8, 0, 0x414, 1) },
                    2, 100, 500
                }
            })
        }
        Device (CPU1)
        {
            Name (_HID, "ACPI0007")
            Name (_UID, One)
            Alias (\_SB.CPU0._CST, _CST)
        }
    }
    ThermalZone (\_TZ.THRM)
    {
        Name (_PSL, Package (0x02) { \_SB.CPU0, \_SB.CPU1 })
    }
}
