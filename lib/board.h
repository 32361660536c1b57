/* The board for C and C++, and by #include for assembly: its devices, control registers and interrupts (docs/BOARD.md). */
#ifndef BOARD_H
#define BOARD_H

#define HALT_ADDRESS      0x00100000
#define TIMER_ADDRESS     0x02000000
#define PLIC_ADDRESS      0x0c000000
#define SERIAL_ADDRESS    0x10000000
#define RAM_ADDRESS       0x80000000

/* mstatus */
#define MSTATUS_MIE       (1 << 3)
#define MSTATUS_MPIE      (1 << 7)
#define MSTATUS_MPP       (3 << 11)
#define MSTATUS_MPRV      (1 << 17)
#define MSTATUS_TW        (1 << 21)

/* mie and mip */
#define MI_SOFTWARE       (1 << 3)
#define MI_TIMER          (1 << 7)
#define MI_EXTERNAL       (1 << 11)

/* mcause */
#define CAUSE_ILLEGAL     2
#define CAUSE_BREAK       3
#define CAUSE_LOAD        5
#define CAUSE_STORE       7
#define CAUSE_USER_CALL   8
#define CAUSE_CALL        11
#define CAUSE_SOFTWARE    0x80000003
#define CAUSE_TIMER       0x80000007
#define CAUSE_EXTERNAL    0x8000000b

/* a byte of pmpcfg */
#define PMP_R             1
#define PMP_W             2
#define PMP_X             4
#define PMP_TOR           (1 << 3)
#define PMP_NA4           (2 << 3)
#define PMP_NAPOT         (3 << 3)
#define PMP_L             0x80

#ifndef __ASSEMBLER__
#include <stdint.h>
#define BOARD_WORD(a)     (*(volatile uint32_t *)(a))
#define HALT              BOARD_WORD(HALT_ADDRESS)
#define MSIP              BOARD_WORD(TIMER_ADDRESS)
#define MTIMECMP          BOARD_WORD(TIMER_ADDRESS + 0x4000)
#define MTIMECMPH         BOARD_WORD(TIMER_ADDRESS + 0x4004)
#define MTIME             BOARD_WORD(TIMER_ADDRESS + 0xbff8)
#define MTIMEH            BOARD_WORD(TIMER_ADDRESS + 0xbffc)
#define PLIC_PRIORITY(s)  BOARD_WORD(PLIC_ADDRESS + 4 * (s))
#define PLIC_PENDING      BOARD_WORD(PLIC_ADDRESS + 0x1000)
#define PLIC_ENABLE       BOARD_WORD(PLIC_ADDRESS + 0x2000)
#define PLIC_THRESHOLD    BOARD_WORD(PLIC_ADDRESS + 0x200000)
#define PLIC_CLAIM        BOARD_WORD(PLIC_ADDRESS + 0x200004)
#define SERIAL_TRANSMIT   (*(volatile uint8_t *)SERIAL_ADDRESS)
#define SERIAL_RECEIVE    BOARD_WORD(SERIAL_ADDRESS + 4)
#define SERIAL_STATUS     BOARD_WORD(SERIAL_ADDRESS + 8)

/* Control registers by their names: uint32_t cause = csr_read(mcause); csr_set(mie, MI_TIMER); */
#define csr_read(c)       ({ uint32_t v_; __asm__ volatile ("csrr %0, " #c : "=r"(v_) : : "memory"); v_; })
#define csr_write(c, v)   __asm__ volatile ("csrw " #c ", %0" : : "rK"(v) : "memory")
#define csr_set(c, v)     __asm__ volatile ("csrs " #c ", %0" : : "rK"(v) : "memory")
#define csr_clear(c, v)   __asm__ volatile ("csrc " #c ", %0" : : "rK"(v) : "memory")

/* A handler for mtvec: it saves what it changes, and returns by MRET. */
#define INTERRUPT         __attribute__((interrupt("machine"), aligned(4)))

#ifdef __cplusplus
extern "C" {
#endif
/* The time: the steps since the start. */
uint64_t board_steps(void);
/* Tells a trap in a line, and halts with 128 and the cause. */
void board_trap(uint32_t cause, uint32_t epc, uint32_t tval);
#ifdef __cplusplus
}
#endif
#endif
#endif
