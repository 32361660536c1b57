// The answers to the lessons of the path: what is to be put in place of what, for each.
const HALT = "        li      t0,HALT\n        li      t1,0x5555\n        sw      t1,(t0)\n";

export const ANSWERS = {
    first: [["        # send an i, too\n", "        li      t1,'i'\n        sw      t1,(t0)\n"],
        ["        # and halt: store 0x5555 at HALT\n", HALT]],
    loop: [["loop:   # load a number, add it to a0, go on to the next one, and count\n",
        "loop:   lw      t2,(t0)\n        add     a0,a0,t2\n        addi    t0,t0,4\n        addi    t1,t1,-1\n        bnez    t1,loop\n"]],
    function: [["        mv      s0,a1\n        call    square\n",
        "        addi    sp,sp,-16\n        sw      ra,12(sp)\n        sw      s0,8(sp)\n        mv      s0,a1\n        call    square\n"],
        ["        add     a0,a0,s0\n", "        add     a0,a0,s0\n        lw      s0,8(sp)\n        lw      ra,12(sp)\n        addi    sp,sp,16\n"]],
    trap: [["        # set mtvec to handler\n", "        la      t0,handler\n        csrw    mtvec,t0\n"],
        ["handler:\n", "handler:\n        addi    s0,s0,1\n        csrr    s1,mepc\n        addi    s1,s1,4\n        csrw    mepc,s1\n        mret\n"]],
    protection: [["        li      t0,-1           # all of memory\n",
        "        la      t0,task\n        srli    t0,t0,2\n        ori     t0,t0,0x1ff\n"]],
};
