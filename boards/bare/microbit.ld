/* The memory of the emulated board microbit (Cortex-M0): 256 KB for code and 16 KB for data. */
MEMORY
{
    CODE (rx) : ORIGIN = 0x00000000, LENGTH = 256K
    DATA (rw) : ORIGIN = 0x20000000, LENGTH = 16K
}
INCLUDE boards/bare/cortex-m.ld
