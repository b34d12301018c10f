// An SSDT with module-level code that leaves what is read: a field of a buffer that is created outside of methods.
DefinitionBlock ("", "SSDT", 2, "POWER ", "BEYOND  ", 0x00000001)
{
    Scope (\_SB)
    {
        Device (CPU0)
        {
            Name (_HID, "ACPI0007")
            Name (BUFR, Buffer (0x08) {})
            CreateDWordField (BUFR, 0x04, HIGH)
        }
    }
}
