/* The memory of the emulated board mps2 (Cortex-M3 and M4): 4 MB each for code and data. */
MEMORY
{
    CODE (rx) : ORIGIN = 0x00000000, LENGTH = 4M
    DATA (rw) : ORIGIN = 0x20000000, LENGTH = 4M
}
INCLUDE boards/bare/cortex-m.ld
