/* The registers beside the processor that these programs use. */
#define WATCHDOG (*(volatile unsigned int *)0x0120)
#define WATCHDOG_OFF 0x5A80

#define PORT_IN (*(const volatile unsigned char *)0x0020)
#define PORT_OUT (*(volatile unsigned char *)0x0021)
#define PORT_DIRECTION (*(volatile unsigned char *)0x0022)
