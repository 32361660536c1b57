# Made by elf2s of demo.elf: 16220 bytes, entry _start.
        .equ    __stack_top,0x80100000

        .text

_start:
        la      sp,__stack_top
        call    main
        tail    halt

__T_as_core.fmt.Debug_.fmt:
        addi    sp,sp,-16
        sw      ra,12(sp)
        sw      s0,8(sp)
        sw      s1,4(sp)
        lw      s1,0(a0)
        mv      s0,a1
        mv      a0,a1
        call    core.fmt.Formatter.debug_lower_hex
        beqz    a0,__T_as_core.fmt.Debug_.fmt.1
        mv      a0,s1
        mv      a1,s0
        lw      ra,12(sp)
        lw      s0,8(sp)
        lw      s1,4(sp)
        addi    sp,sp,16
        tail    core.fmt.num._impl_core.fmt.LowerHex_for_u32_.fmt
__T_as_core.fmt.Debug_.fmt.1:
        mv      a0,s0
        call    core.fmt.Formatter.debug_upper_hex
        beqz    a0,__T_as_core.fmt.Debug_.fmt.2
        mv      a0,s1
        mv      a1,s0
        lw      ra,12(sp)
        lw      s0,8(sp)
        lw      s1,4(sp)
        addi    sp,sp,16
        tail    core.fmt.num._impl_core.fmt.UpperHex_for_u32_.fmt
__T_as_core.fmt.Debug_.fmt.2:
        mv      a0,s1
        mv      a1,s0
        lw      ra,12(sp)
        lw      s0,8(sp)
        lw      s1,4(sp)
        addi    sp,sp,16
        tail    core.fmt.num.imp._impl_core.fmt.Display_for_u32_.fmt

core.ptr.drop_in_place__u32_:
        ret

core.ptr.drop_in_place__mut_demo.Serial_:
        ret

__mut_W_as_core.fmt.Write_.write_char:
        addi    sp,sp,-16
        li      a0,128
        sw      zero,12(sp)
        bgeu    a1,a0,__mut_W_as_core.fmt.Write_.write_char.1
        li      a0,1
        bnez    a0,__mut_W_as_core.fmt.Write_.write_char.4
        j       __mut_W_as_core.fmt.Write_.write_char.6
__mut_W_as_core.fmt.Write_.write_char.1:
        srli    a0,a1,11
        bnez    a0,__mut_W_as_core.fmt.Write_.write_char.2.2
        srli    a0,a1,6
        andi    a1,a1,63
        ori     a2,a0,-64
        sb      a2,12(sp)
        ori     a0,a1,128
        sb      a0,13(sp)
        li      a0,2
        mv      a1,a2
        bnez    a0,__mut_W_as_core.fmt.Write_.write_char.4
        j       __mut_W_as_core.fmt.Write_.write_char.6
__mut_W_as_core.fmt.Write_.write_char.2.2:
        srli    a0,a1,16
        bnez    a0,__mut_W_as_core.fmt.Write_.write_char.3
        srli    a0,a1,12
        srli    a2,a1,6
        andi    a1,a1,63
        ori     a3,a0,-32
        sb      a3,12(sp)
        andi    a0,a2,63
        ori     a0,a0,128
        sb      a0,13(sp)
        ori     a0,a1,128
        sb      a0,14(sp)
        li      a0,3
        mv      a1,a3
        bnez    a0,__mut_W_as_core.fmt.Write_.write_char.4
        j       __mut_W_as_core.fmt.Write_.write_char.6
__mut_W_as_core.fmt.Write_.write_char.3:
        srli    a0,a1,18
        srli    a2,a1,12
        srli    a3,a1,6
        andi    a1,a1,63
        ori     a4,a0,-16
        sb      a4,12(sp)
        andi    a0,a2,63
        ori     a0,a0,128
        sb      a0,13(sp)
        andi    a0,a3,63
        ori     a0,a0,128
        sb      a0,14(sp)
        ori     a0,a1,128
        sb      a0,15(sp)
        li      a0,4
        mv      a1,a4
        beqz    a0,__mut_W_as_core.fmt.Write_.write_char.6
__mut_W_as_core.fmt.Write_.write_char.4:
        addi    a2,sp,12
        add     a4,a2,a0
        addi    a2,sp,13
        li      a3,0x10000000
        sb      a1,0(a3)
        beq     a2,a4,__mut_W_as_core.fmt.Write_.write_char.6
        addi    a0,a0,-1
__mut_W_as_core.fmt.Write_.write_char.5:
        lb      a1,0(a2)
        addi    a2,a2,1
        addi    a0,a0,-1
        sb      a1,0(a3)
        bnez    a0,__mut_W_as_core.fmt.Write_.write_char.5
__mut_W_as_core.fmt.Write_.write_char.6:
        li      a0,0
        addi    sp,sp,16
        ret

__mut_W_as_core.fmt.Write_.write_fmt:
        addi    sp,sp,-48
        sw      ra,44(sp)
        lw      a0,0(a0)
        lw      a2,20(a1)
        lw      a3,16(a1)
        sw      a0,12(sp)
        sw      a2,36(sp)
        sw      a3,32(sp)
        lw      a0,12(a1)
        lw      a2,8(a1)
        lw      a3,4(a1)
        lw      a1,0(a1)
        sw      a0,28(sp)
        sw      a2,24(sp)
        sw      a3,20(sp)
        sw      a1,16(sp)
        lui     a0,%hi(rodata.10)
        addi    a1,a0,%lo(rodata.10)
        addi    a0,sp,12
        addi    a2,sp,16
        call    core.fmt.write
        lw      ra,44(sp)
        addi    sp,sp,48
        ret

__mut_W_as_core.fmt.Write_.write_str:
        beqz    a2,__mut_W_as_core.fmt.Write_.write_str.2.2
        li      a0,0x10000000
__mut_W_as_core.fmt.Write_.write_str.1:
        lb      a3,0(a1)
        addi    a1,a1,1
        addi    a2,a2,-1
        sb      a3,0(a0)
        bnez    a2,__mut_W_as_core.fmt.Write_.write_str.1
__mut_W_as_core.fmt.Write_.write_str.2.2:
        li      a0,0
        ret

halt:
        beqz    a0,halt.1
        slli    a0,a0,16
        li      a1,0x3333
        or      a0,a0,a1
        j       halt.2
halt.1:
        li      a0,0x5555
halt.2:
        li      a1,0x100000
halt.3:
        sw      a0,0(a1)
        j       halt.3

rust_begin_unwind:
        addi    sp,sp,-64
        sw      ra,60(sp)
        sw      a0,12(sp)
        addi    a0,sp,12
        sw      a0,16(sp)
        lui     a0,%hi(__T_as_core.fmt.Display_.fmt.4)
        addi    a0,a0,%lo(__T_as_core.fmt.Display_.fmt.4)
        sw      a0,20(sp)
        addi    a0,sp,56
        sw      a0,28(sp)
        lui     a0,%hi(rodata.2c)
        addi    a0,a0,%lo(rodata.2c)
        sw      a0,32(sp)
        li      a0,2
        sw      a0,36(sp)
        sw      zero,40(sp)
        addi    a0,sp,16
        sw      a0,48(sp)
        li      a0,1
        sw      a0,52(sp)
        lui     a0,%hi(rodata.10)
        addi    a1,a0,%lo(rodata.10)
        addi    a0,sp,28
        addi    a2,sp,32
        call    core.fmt.write
        li      a0,0x653333
        li      a1,0x100000
rust_begin_unwind.1:
        sw      a0,0(a1)
        j       rust_begin_unwind.1

main:
        addi    sp,sp,-112
        sw      ra,108(sp)
        sw      s0,104(sp)
        sw      s1,100(sp)
        li      a0,3
        sw      a0,12(sp)
        li      a1,1
        sw      a1,16(sp)
        li      a2,4
        sw      a2,20(sp)
        sw      a1,24(sp)
        li      a1,5
        sw      a1,28(sp)
        li      a1,9
        sw      a1,32(sp)
        li      s0,2
        sw      s0,36(sp)
        li      a1,6
        sw      a1,40(sp)
        li      a1,31
        sw      a1,44(sp)
        addi    a1,sp,44
        sw      a1,48(sp)
        lui     a1,%hi(core.fmt.num.imp._impl_core.fmt.Display_for_u32_.fmt)
        addi    a1,a1,%lo(core.fmt.num.imp._impl_core.fmt.Display_for_u32_.fmt)
        sw      a1,52(sp)
        addi    s1,sp,12
        sw      s1,56(sp)
        lui     a1,%hi(core.array._impl_core.fmt.Debug_for__T__N__.fmt)
        addi    a1,a1,%lo(core.array._impl_core.fmt.Debug_for__T__N__.fmt)
        sw      a1,60(sp)
        addi    a1,sp,96
        sw      a1,68(sp)
        lui     a1,%hi(rodata.44)
        addi    a1,a1,%lo(rodata.44)
        sw      a1,72(sp)
        sw      a0,76(sp)
        sw      zero,80(sp)
        addi    a0,sp,48
        sw      a0,88(sp)
        sw      s0,92(sp)
        lui     a0,%hi(rodata.10)
        addi    a1,a0,%lo(rodata.10)
        addi    a0,sp,68
        addi    a2,sp,72
        call    core.fmt.write
        lw      a0,12(sp)
        lw      a1,16(sp)
        sltu    a0,s0,a0
        lw      a2,20(sp)
        sltu    a1,s0,a1
        add     a0,a0,a1
        lw      a1,24(sp)
        sltu    a2,s0,a2
        add     a0,a0,a2
        lw      a2,28(sp)
        sltu    a1,s0,a1
        add     a0,a0,a1
        lw      a1,32(sp)
        sltu    a2,s0,a2
        add     a0,a0,a2
        lw      a2,36(sp)
        sltu    a1,s0,a1
        add     a0,a0,a1
        lw      a1,40(sp)
        sltu    a2,s0,a2
        lw      a3,44(sp)
        add     a0,a0,a2
        sltu    a1,s0,a1
        add     a0,a0,a1
        add     a0,a3,a0
        li      a1,7
        bltu    a1,a0,main.1
        slli    a0,a0,2
        add     a0,s1,a0
        lw      a0,0(a0)
        lw      ra,108(sp)
        lw      s0,104(sp)
        lw      s1,100(sp)
        addi    sp,sp,112
        ret
main.1:
        lui     a1,%hi(rodata.74)
        addi    a2,a1,%lo(rodata.74)
        li      a1,8
        call    core.panicking.panic_bounds_check
        .word   0xc0001073              # unimp

__T_as_core.fmt.Display_.fmt.4:
        lw      a0,0(a0)
        tail    _core.panic.panic_info.PanicInfo_as_core.fmt.Display_.fmt

core.array._impl_core.fmt.Debug_for__T__N__.fmt:
        addi    sp,sp,-32
        sw      ra,28(sp)
        sw      s0,24(sp)
        sw      s1,20(sp)
        sw      s2,16(sp)
        sw      s3,12(sp)
        mv      s1,a0
        mv      a0,sp
        call    core.fmt.Formatter.debug_list
        addi    s2,s1,4
        sw      s1,8(sp)
        lui     a0,%hi(anon.b8b077a05a6d57b8b19e080ff27c9a5d.0.llvm.868318251082372115)
        addi    s0,a0,%lo(anon.b8b077a05a6d57b8b19e080ff27c9a5d.0.llvm.868318251082372115)
        mv      a0,sp
        addi    a1,sp,8
        mv      a2,s0
        call    core.fmt.builders.DebugList.entry
        addi    s3,s1,8
        sw      s2,8(sp)
        mv      a0,sp
        addi    a1,sp,8
        mv      a2,s0
        call    core.fmt.builders.DebugList.entry
        addi    s2,s1,12
        sw      s3,8(sp)
        mv      a0,sp
        addi    a1,sp,8
        mv      a2,s0
        call    core.fmt.builders.DebugList.entry
        addi    s3,s1,16
        sw      s2,8(sp)
        mv      a0,sp
        addi    a1,sp,8
        mv      a2,s0
        call    core.fmt.builders.DebugList.entry
        addi    s2,s1,20
        sw      s3,8(sp)
        mv      a0,sp
        addi    a1,sp,8
        mv      a2,s0
        call    core.fmt.builders.DebugList.entry
        addi    s3,s1,24
        sw      s2,8(sp)
        mv      a0,sp
        addi    a1,sp,8
        mv      a2,s0
        call    core.fmt.builders.DebugList.entry
        addi    s1,s1,28
        sw      s3,8(sp)
        mv      a0,sp
        addi    a1,sp,8
        mv      a2,s0
        call    core.fmt.builders.DebugList.entry
        sw      s1,8(sp)
        mv      a0,sp
        addi    a1,sp,8
        mv      a2,s0
        call    core.fmt.builders.DebugList.entry
        mv      a0,sp
        call    core.fmt.builders.DebugList.finish
        lw      ra,28(sp)
        lw      s0,24(sp)
        lw      s1,20(sp)
        lw      s2,16(sp)
        lw      s3,12(sp)
        addi    sp,sp,32
        ret

core.fmt.num._impl_core.fmt.LowerHex_for_u32_.fmt:
core.fmt.num._impl_core.fmt.LowerHex_for_usize_.fmt:
core.fmt.num._impl_core.fmt.LowerHex_for_isize_.fmt:
core.fmt.num._impl_core.fmt.LowerHex_for_i32_.fmt:
        addi    sp,sp,-144
        sw      ra,140(sp)
        mv      a6,a1
        li      a1,0
        lw      a7,0(a0)
        addi    a0,sp,12
        li      a2,10
        li      a3,15
        j       core.fmt.num._impl_core.fmt.LowerHex_for_u32_.fmt.2
core.fmt.num._impl_core.fmt.LowerHex_for_u32_.fmt.1:
        add     t1,a0,a1
        srli    a7,a4,4
        add     a5,t0,a5
        sb      a5,127(t1)
        addi    a1,a1,-1
        bgeu    a3,a4,core.fmt.num._impl_core.fmt.LowerHex_for_u32_.fmt.3
core.fmt.num._impl_core.fmt.LowerHex_for_u32_.fmt.2:
        mv      a4,a7
        andi    a5,a7,15
        li      t0,48
        bltu    a5,a2,core.fmt.num._impl_core.fmt.LowerHex_for_u32_.fmt.1
        li      t0,87
        j       core.fmt.num._impl_core.fmt.LowerHex_for_u32_.fmt.1
core.fmt.num._impl_core.fmt.LowerHex_for_u32_.fmt.3:
        addi    a0,a1,128
        li      a2,129
        bgeu    a0,a2,core.fmt.num._impl_core.fmt.LowerHex_for_u32_.fmt.4
        neg     a5,a1
        addi    a0,sp,12
        add     a0,a0,a1
        addi    a4,a0,128
        lui     a0,%hi(anon.d8baefb1ceef499e2c940a0845b5f94b.4.llvm.9151028078758918862)
        addi    a2,a0,%lo(anon.d8baefb1ceef499e2c940a0845b5f94b.4.llvm.9151028078758918862)
        li      a1,1
        li      a3,2
        mv      a0,a6
        call    core.fmt.Formatter.pad_integral
        lw      ra,140(sp)
        addi    sp,sp,144
        ret
core.fmt.num._impl_core.fmt.LowerHex_for_u32_.fmt.4:
        lui     a1,%hi(anon.d8baefb1ceef499e2c940a0845b5f94b.1.llvm.9151028078758918862)
        addi    a2,a1,%lo(anon.d8baefb1ceef499e2c940a0845b5f94b.1.llvm.9151028078758918862)
        li      a1,128
        call    core.slice.index.slice_start_index_len_fail
        .word   0xc0001073              # unimp

core.fmt.num._impl_core.fmt.UpperHex_for_i32_.fmt:
core.fmt.num._impl_core.fmt.UpperHex_for_isize_.fmt:
core.fmt.num._impl_core.fmt.UpperHex_for_usize_.fmt:
core.fmt.num._impl_core.fmt.UpperHex_for_u32_.fmt:
        addi    sp,sp,-144
        sw      ra,140(sp)
        mv      a6,a1
        li      a1,0
        lw      a7,0(a0)
        addi    a0,sp,12
        li      a2,10
        li      a3,15
        j       core.fmt.num._impl_core.fmt.UpperHex_for_i32_.fmt.2
core.fmt.num._impl_core.fmt.UpperHex_for_i32_.fmt.1:
        add     t1,a0,a1
        srli    a7,a4,4
        add     a5,t0,a5
        sb      a5,127(t1)
        addi    a1,a1,-1
        bgeu    a3,a4,core.fmt.num._impl_core.fmt.UpperHex_for_i32_.fmt.3
core.fmt.num._impl_core.fmt.UpperHex_for_i32_.fmt.2:
        mv      a4,a7
        andi    a5,a7,15
        li      t0,48
        bltu    a5,a2,core.fmt.num._impl_core.fmt.UpperHex_for_i32_.fmt.1
        li      t0,55
        j       core.fmt.num._impl_core.fmt.UpperHex_for_i32_.fmt.1
core.fmt.num._impl_core.fmt.UpperHex_for_i32_.fmt.3:
        addi    a0,a1,128
        li      a2,129
        bgeu    a0,a2,core.fmt.num._impl_core.fmt.UpperHex_for_i32_.fmt.4
        neg     a5,a1
        addi    a0,sp,12
        add     a0,a0,a1
        addi    a4,a0,128
        lui     a0,%hi(anon.d8baefb1ceef499e2c940a0845b5f94b.4.llvm.9151028078758918862)
        addi    a2,a0,%lo(anon.d8baefb1ceef499e2c940a0845b5f94b.4.llvm.9151028078758918862)
        li      a1,1
        li      a3,2
        mv      a0,a6
        call    core.fmt.Formatter.pad_integral
        lw      ra,140(sp)
        addi    sp,sp,144
        ret
core.fmt.num._impl_core.fmt.UpperHex_for_i32_.fmt.4:
        lui     a1,%hi(anon.d8baefb1ceef499e2c940a0845b5f94b.1.llvm.9151028078758918862)
        addi    a2,a1,%lo(anon.d8baefb1ceef499e2c940a0845b5f94b.1.llvm.9151028078758918862)
        li      a1,128
        call    core.slice.index.slice_start_index_len_fail
        .word   0xc0001073              # unimp

core.ops.function.FnOnce.call_once:
        lw      a0,0(a0)
core.ops.function.FnOnce.call_once.1:
        j       core.ops.function.FnOnce.call_once.1

core.ptr.drop_in_place_core.fmt.builders.PadAdapter_:
        ret

core.fmt.write:
        addi    sp,sp,-80
        sw      ra,76(sp)
        sw      s0,72(sp)
        sw      s1,68(sp)
        sw      s2,64(sp)
        sw      s3,60(sp)
        sw      s4,56(sp)
        sw      s5,52(sp)
        sw      s6,48(sp)
        mv      s0,a2
        sw      zero,8(sp)
        li      a2,32
        sw      a2,12(sp)
        li      a2,3
        sb      a2,40(sp)
        lw      a2,8(s0)
        sw      zero,16(sp)
        sw      zero,24(sp)
        sw      a0,32(sp)
        sw      a1,36(sp)
        beqz    a2,core.fmt.write.11
        lw      a0,12(s0)
        slli    s2,a0,5
        beqz    s2,core.fmt.write.14
        lw      a1,0(s0)
        addi    a0,a0,-1
        slli    a0,a0,5
        srli    a0,a0,5
        addi    s1,a0,1
        addi    s3,a1,4
        addi    s4,a2,16
        li      s5,1
        lui     a0,%hi(core.ops.function.FnOnce.call_once)
        addi    s6,a0,%lo(core.ops.function.FnOnce.call_once)
core.fmt.write.1:
        lw      a2,0(s3)
        beqz    a2,core.fmt.write.2
        lw      a3,36(sp)
        lw      a0,32(sp)
        lw      a1,-4(s3)
        lw      a3,12(a3)
        jalr    a3
        bnez    a0,core.fmt.write.20
core.fmt.write.2:
        lw      a0,-12(s4)
        sw      a0,12(sp)
        lb      a0,12(s4)
        sb      a0,40(sp)
        lw      a0,-8(s4)
        sw      a0,8(sp)
        lw      a3,4(s4)
        lw      a0,16(s0)
        beqz    a3,core.fmt.write.3
        li      a2,0
        bne     a3,s5,core.fmt.write.6
        lw      a1,8(s4)
        slli    a1,a1,3
        add     a1,a0,a1
        lw      a2,4(a1)
        beq     a2,s6,core.fmt.write.4
        li      a2,0
        j       core.fmt.write.6
core.fmt.write.3:
        addi    a1,s4,8
        j       core.fmt.write.5
core.fmt.write.4:
        lw      a1,0(a1)
core.fmt.write.5:
        lw      a1,0(a1)
        li      a2,1
core.fmt.write.6:
        sw      a2,16(sp)
        sw      a1,20(sp)
        lw      a3,-4(s4)
        beqz    a3,core.fmt.write.7
        li      a2,0
        bne     a3,s5,core.fmt.write.10
        lw      a1,0(s4)
        slli    a1,a1,3
        add     a1,a0,a1
        lw      a2,4(a1)
        beq     a2,s6,core.fmt.write.8
        li      a2,0
        j       core.fmt.write.10
core.fmt.write.7:
        mv      a1,s4
        j       core.fmt.write.9
core.fmt.write.8:
        lw      a1,0(a1)
core.fmt.write.9:
        lw      a1,0(a1)
        li      a2,1
core.fmt.write.10:
        sw      a2,24(sp)
        sw      a1,28(sp)
        lw      a1,-16(s4)
        slli    a1,a1,3
        add     a0,a0,a1
        lw      a2,4(a0)
        lw      a0,0(a0)
        addi    a1,sp,8
        jalr    a2
        bnez    a0,core.fmt.write.20
        addi    s3,s3,8
        addi    s2,s2,-32
        addi    s4,s4,32
        bnez    s2,core.fmt.write.1
        j       core.fmt.write.15
core.fmt.write.11:
        lw      a0,20(s0)
        beqz    a0,core.fmt.write.17
        lw      a1,16(s0)
        lw      a2,0(s0)
        addi    a3,a0,-1
        slli    a3,a3,3
        srli    a3,a3,3
        addi    s1,a3,1
        addi    s2,a2,4
        addi    s3,a1,4
        slli    s4,a0,3
core.fmt.write.12:
        lw      a2,0(s2)
        beqz    a2,core.fmt.write.13
        lw      a3,36(sp)
        lw      a0,32(sp)
        lw      a1,-4(s2)
        lw      a3,12(a3)
        jalr    a3
        bnez    a0,core.fmt.write.20
core.fmt.write.13:
        lw      a2,0(s3)
        lw      a0,-4(s3)
        addi    a1,sp,8
        jalr    a2
        bnez    a0,core.fmt.write.20
        addi    s2,s2,8
        addi    s4,s4,-8
        addi    s3,s3,8
        bnez    s4,core.fmt.write.12
        j       core.fmt.write.15
core.fmt.write.14:
        li      s1,0
core.fmt.write.15:
        lw      a0,4(s0)
        bltu    s1,a0,core.fmt.write.18
core.fmt.write.16:
        li      a2,0
        bltu    s1,a0,core.fmt.write.19
        j       core.fmt.write.21
core.fmt.write.17:
        li      s1,0
        lw      a0,4(s0)
        bgeu    s1,a0,core.fmt.write.16
core.fmt.write.18:
        lw      a1,0(s0)
        slli    a2,s1,3
        add     a2,a1,a2
        bgeu    s1,a0,core.fmt.write.21
core.fmt.write.19:
        lw      a3,36(sp)
        lw      a0,32(sp)
        lw      a1,0(a2)
        lw      a2,4(a2)
        lw      a3,12(a3)
        jalr    a3
        beqz    a0,core.fmt.write.21
core.fmt.write.20:
        li      a0,1
        j       core.fmt.write.22
core.fmt.write.21:
        li      a0,0
core.fmt.write.22:
        lw      ra,76(sp)
        lw      s0,72(sp)
        lw      s1,68(sp)
        lw      s2,64(sp)
        lw      s3,60(sp)
        lw      s4,56(sp)
        lw      s5,52(sp)
        lw      s6,48(sp)
        addi    sp,sp,80
        ret

core.fmt.Formatter.pad_integral:
        addi    sp,sp,-48
        sw      ra,44(sp)
        sw      s0,40(sp)
        sw      s1,36(sp)
        sw      s2,32(sp)
        sw      s3,28(sp)
        sw      s4,24(sp)
        sw      s5,20(sp)
        sw      s6,16(sp)
        sw      s7,12(sp)
        sw      s8,8(sp)
        sw      s9,4(sp)
        sw      s10,0(sp)
        mv      s1,a5
        mv      s2,a4
        mv      s3,a3
        mv      s5,a2
        mv      s0,a0
        beqz    a1,core.fmt.Formatter.pad_integral.4
        lw      a0,0(s0)
        andi    a1,a0,1
        li      s4,0x110000
        beqz    a1,core.fmt.Formatter.pad_integral.1
        li      s4,43
core.fmt.Formatter.pad_integral.1:
        add     s7,a1,s1
        andi    a0,a0,4
        beqz    a0,core.fmt.Formatter.pad_integral.5
core.fmt.Formatter.pad_integral.2:
        li      a0,16
        bgeu    s3,a0,core.fmt.Formatter.pad_integral.6
        li      a0,0
        beqz    s3,core.fmt.Formatter.pad_integral.7
        li      a1,-65
        mv      a2,s3
        mv      a3,s5
core.fmt.Formatter.pad_integral.3:
        lb      a4,0(a3)
        addi    a3,a3,1
        slt     a4,a1,a4
        addi    a2,a2,-1
        add     a0,a0,a4
        bnez    a2,core.fmt.Formatter.pad_integral.3
        j       core.fmt.Formatter.pad_integral.7
core.fmt.Formatter.pad_integral.4:
        lw      a0,0(s0)
        addi    s7,s1,1
        li      s4,45
        andi    a0,a0,4
        bnez    a0,core.fmt.Formatter.pad_integral.2
core.fmt.Formatter.pad_integral.5:
        li      s6,0
        lw      a0,8(s0)
        bnez    a0,core.fmt.Formatter.pad_integral.8
        j       core.fmt.Formatter.pad_integral.10
core.fmt.Formatter.pad_integral.6:
        mv      a0,s5
        mv      a1,s3
        call    core.str.count.do_count_chars
core.fmt.Formatter.pad_integral.7:
        add     s7,a0,s7
        mv      s6,s5
        lw      a0,8(s0)
        beqz    a0,core.fmt.Formatter.pad_integral.10
core.fmt.Formatter.pad_integral.8:
        lw      s10,12(s0)
        bgeu    s7,s10,core.fmt.Formatter.pad_integral.10
        lbu     a0,0(s0)
        andi    a0,a0,8
        bnez    a0,core.fmt.Formatter.pad_integral.11
        lbu     a1,32(s0)
        li      a2,3
        li      a0,1
        beq     a1,a2,core.fmt.Formatter.pad_integral.9
        mv      a0,a1
core.fmt.Formatter.pad_integral.9:
        andi    a1,a0,3
        sub     a0,s10,s7
        beqz    a1,core.fmt.Formatter.pad_integral.13
        li      a2,1
        bne     a1,a2,core.fmt.Formatter.pad_integral.14
        li      s8,0
        j       core.fmt.Formatter.pad_integral.15
core.fmt.Formatter.pad_integral.10:
        mv      a0,s0
        mv      a1,s4
        mv      a2,s6
        mv      a3,s3
        call    core.fmt.Formatter.pad_integral.write_prefix
        li      s5,1
        bnez    a0,core.fmt.Formatter.pad_integral.24
        lw      a1,28(s0)
        lw      a0,24(s0)
        lw      t1,12(a1)
        mv      a1,s2
        mv      a2,s1
        lw      ra,44(sp)
        lw      s0,40(sp)
        lw      s1,36(sp)
        lw      s2,32(sp)
        lw      s3,28(sp)
        lw      s4,24(sp)
        lw      s5,20(sp)
        lw      s6,16(sp)
        lw      s7,12(sp)
        lw      s8,8(sp)
        lw      s9,4(sp)
        lw      s10,0(sp)
        addi    sp,sp,48
        jr      t1
core.fmt.Formatter.pad_integral.11:
        lw      s8,4(s0)
        li      a0,48
        lbu     s9,32(s0)
        sw      a0,4(s0)
        li      s5,1
        sb      s5,32(s0)
        mv      a0,s0
        mv      a1,s4
        mv      a2,s6
        mv      a3,s3
        call    core.fmt.Formatter.pad_integral.write_prefix
        bnez    a0,core.fmt.Formatter.pad_integral.24
        lbu     a1,32(s0)
        li      a2,3
        li      a0,1
        beq     a1,a2,core.fmt.Formatter.pad_integral.12
        mv      a0,a1
core.fmt.Formatter.pad_integral.12:
        andi    a1,a0,3
        sub     a0,s10,s7
        beqz    a1,core.fmt.Formatter.pad_integral.19
        li      a2,1
        bne     a1,a2,core.fmt.Formatter.pad_integral.20
        li      s6,0
        j       core.fmt.Formatter.pad_integral.21
core.fmt.Formatter.pad_integral.13:
        mv      s8,a0
        li      a0,0
        j       core.fmt.Formatter.pad_integral.15
core.fmt.Formatter.pad_integral.14:
        addi    a1,a0,1
        srli    a0,a0,1
        srli    s8,a1,1
core.fmt.Formatter.pad_integral.15:
        lw      s5,24(s0)
        lw      s9,28(s0)
        lw      s7,4(s0)
        addi    s10,a0,1
core.fmt.Formatter.pad_integral.16:
        addi    s10,s10,-1
        beqz    s10,core.fmt.Formatter.pad_integral.17
        lw      a2,16(s9)
        mv      a0,s5
        mv      a1,s7
        jalr    a2
        beqz    a0,core.fmt.Formatter.pad_integral.16
        j       core.fmt.Formatter.pad_integral.23
core.fmt.Formatter.pad_integral.17:
        li      a0,0x110000
        li      s5,1
        beq     s7,a0,core.fmt.Formatter.pad_integral.24
        mv      a0,s0
        mv      a1,s4
        mv      a2,s6
        mv      a3,s3
        call    core.fmt.Formatter.pad_integral.write_prefix
        bnez    a0,core.fmt.Formatter.pad_integral.24
        lw      a1,28(s0)
        lw      a0,24(s0)
        lw      a3,12(a1)
        mv      a1,s2
        mv      a2,s1
        jalr    a3
        bnez    a0,core.fmt.Formatter.pad_integral.24
        lw      s1,24(s0)
        lw      s0,28(s0)
        li      s2,0
core.fmt.Formatter.pad_integral.18:
        beq     s8,s2,core.fmt.Formatter.pad_integral.28
        lw      a2,16(s0)
        addi    s2,s2,1
        mv      a0,s1
        mv      a1,s7
        jalr    a2
        beqz    a0,core.fmt.Formatter.pad_integral.18
        addi    a0,s2,-1
        j       core.fmt.Formatter.pad_integral.29
core.fmt.Formatter.pad_integral.19:
        mv      s6,a0
        li      a0,0
        j       core.fmt.Formatter.pad_integral.21
core.fmt.Formatter.pad_integral.20:
        addi    a1,a0,1
        srli    a0,a0,1
        srli    s6,a1,1
core.fmt.Formatter.pad_integral.21:
        lw      s4,24(s0)
        lw      s5,28(s0)
        lw      s3,4(s0)
        addi    s7,a0,1
core.fmt.Formatter.pad_integral.22:
        addi    s7,s7,-1
        beqz    s7,core.fmt.Formatter.pad_integral.25
        lw      a2,16(s5)
        mv      a0,s4
        mv      a1,s3
        jalr    a2
        beqz    a0,core.fmt.Formatter.pad_integral.22
core.fmt.Formatter.pad_integral.23:
        li      s5,1
core.fmt.Formatter.pad_integral.24:
        mv      a0,s5
        lw      ra,44(sp)
        lw      s0,40(sp)
        lw      s1,36(sp)
        lw      s2,32(sp)
        lw      s3,28(sp)
        lw      s4,24(sp)
        lw      s5,20(sp)
        lw      s6,16(sp)
        lw      s7,12(sp)
        lw      s8,8(sp)
        lw      s9,4(sp)
        lw      s10,0(sp)
        addi    sp,sp,48
        ret
core.fmt.Formatter.pad_integral.25:
        li      a0,0x110000
        li      s5,1
        beq     s3,a0,core.fmt.Formatter.pad_integral.24
        lw      a1,28(s0)
        lw      a0,24(s0)
        lw      a3,12(a1)
        mv      a1,s2
        mv      a2,s1
        jalr    a3
        bnez    a0,core.fmt.Formatter.pad_integral.24
        lw      s1,24(s0)
        lw      s2,28(s0)
        li      s4,0
core.fmt.Formatter.pad_integral.26:
        beq     s6,s4,core.fmt.Formatter.pad_integral.27
        lw      a2,16(s2)
        addi    s4,s4,1
        mv      a0,s1
        mv      a1,s3
        jalr    a2
        beqz    a0,core.fmt.Formatter.pad_integral.26
        addi    a0,s4,-1
        bltu    a0,s6,core.fmt.Formatter.pad_integral.24
core.fmt.Formatter.pad_integral.27:
        li      s5,0
        sw      s8,4(s0)
        sb      s9,32(s0)
        j       core.fmt.Formatter.pad_integral.24
core.fmt.Formatter.pad_integral.28:
        mv      a0,s8
core.fmt.Formatter.pad_integral.29:
        sltu    s5,a0,s8
        j       core.fmt.Formatter.pad_integral.24

core.fmt.Formatter.pad_integral.write_prefix:
        addi    sp,sp,-16
        sw      ra,12(sp)
        sw      s0,8(sp)
        sw      s1,4(sp)
        sw      s2,0(sp)
        li      a4,0x110000
        mv      s0,a3
        mv      s1,a2
        mv      s2,a0
        beq     a1,a4,core.fmt.Formatter.pad_integral.write_prefix.1
        lw      a2,28(s2)
        lw      a0,24(s2)
        lw      a2,16(a2)
        jalr    a2
        mv      a1,a0
        li      a0,1
        bnez    a1,core.fmt.Formatter.pad_integral.write_prefix.3
core.fmt.Formatter.pad_integral.write_prefix.1:
        beqz    s1,core.fmt.Formatter.pad_integral.write_prefix.2
        lw      a1,28(s2)
        lw      a0,24(s2)
        lw      t1,12(a1)
        mv      a1,s1
        mv      a2,s0
        lw      ra,12(sp)
        lw      s0,8(sp)
        lw      s1,4(sp)
        lw      s2,0(sp)
        addi    sp,sp,16
        jr      t1
core.fmt.Formatter.pad_integral.write_prefix.2:
        li      a0,0
core.fmt.Formatter.pad_integral.write_prefix.3:
        lw      ra,12(sp)
        lw      s0,8(sp)
        lw      s1,4(sp)
        lw      s2,0(sp)
        addi    sp,sp,16
        ret

core.fmt.Formatter.pad:
        addi    sp,sp,-32
        sw      ra,28(sp)
        sw      s0,24(sp)
        sw      s1,20(sp)
        sw      s2,16(sp)
        sw      s3,12(sp)
        sw      s4,8(sp)
        sw      s5,4(sp)
        sw      s6,0(sp)
        mv      s2,a0
        lw      a0,8(a0)
        lw      a3,16(s2)
        addi    a4,a0,-1
        seqz    a4,a4
        addi    a5,a3,-1
        seqz    a5,a5
        or      a4,a4,a5
        mv      s0,a2
        mv      s1,a1
        beqz    a4,core.fmt.Formatter.pad.19
        li      a1,1
        bne     a3,a1,core.fmt.Formatter.pad.13
        lw      a3,20(s2)
        add     a2,s1,s0
        li      a1,0
        beqz    a3,core.fmt.Formatter.pad.6
        li      a4,224
        li      a5,240
        li      a6,0x110000
        mv      a7,s1
        j       core.fmt.Formatter.pad.3
core.fmt.Formatter.pad.1:
        addi    t0,a7,1
core.fmt.Formatter.pad.2:
        sub     a1,a1,a7
        addi    a3,a3,-1
        add     a1,a1,t0
        mv      a7,t0
        beqz    a3,core.fmt.Formatter.pad.7
core.fmt.Formatter.pad.3:
        beq     a7,a2,core.fmt.Formatter.pad.13
        lb      t0,0(a7)
        bgez    t0,core.fmt.Formatter.pad.1
        andi    t0,t0,255
        bltu    t0,a4,core.fmt.Formatter.pad.4
        bltu    t0,a5,core.fmt.Formatter.pad.5
        lbu     t1,1(a7)
        lbu     t2,2(a7)
        andi    t1,t1,63
        andi    t2,t2,63
        lbu     t3,3(a7)
        slli    t0,t0,29
        srli    t0,t0,11
        slli    t1,t1,12
        slli    t2,t2,6
        or      t1,t2,t1
        andi    t2,t3,63
        or      t1,t1,t2
        or      t0,t1,t0
        beq     t0,a6,core.fmt.Formatter.pad.13
        addi    t0,a7,4
        j       core.fmt.Formatter.pad.2
core.fmt.Formatter.pad.4:
        addi    t0,a7,2
        j       core.fmt.Formatter.pad.2
core.fmt.Formatter.pad.5:
        addi    t0,a7,3
        j       core.fmt.Formatter.pad.2
core.fmt.Formatter.pad.6:
        mv      t0,s1
core.fmt.Formatter.pad.7:
        beq     t0,a2,core.fmt.Formatter.pad.13
        lb      a2,0(t0)
        bgez    a2,core.fmt.Formatter.pad.8
        andi    a2,a2,255
        li      a3,224
        bltu    a2,a3,core.fmt.Formatter.pad.8
        li      a3,240
        bltu    a2,a3,core.fmt.Formatter.pad.8
        lbu     a3,1(t0)
        lbu     a4,2(t0)
        andi    a3,a3,63
        andi    a4,a4,63
        lbu     a5,3(t0)
        slli    a2,a2,29
        srli    a2,a2,11
        slli    a3,a3,12
        slli    a4,a4,6
        or      a3,a4,a3
        andi    a4,a5,63
        or      a3,a3,a4
        or      a2,a3,a2
        li      a3,0x110000
        beq     a2,a3,core.fmt.Formatter.pad.13
core.fmt.Formatter.pad.8:
        beqz    a1,core.fmt.Formatter.pad.9
        bgeu    a1,s0,core.fmt.Formatter.pad.10
        add     a2,s1,a1
        lb      a2,0(a2)
        li      a3,-64
        blt     a2,a3,core.fmt.Formatter.pad.26
        mv      a2,a1
        j       core.fmt.Formatter.pad.11
core.fmt.Formatter.pad.9:
        li      a2,0
        j       core.fmt.Formatter.pad.11
core.fmt.Formatter.pad.10:
        mv      a2,s0
        bne     a1,s0,core.fmt.Formatter.pad.26
core.fmt.Formatter.pad.11:
        mv      a1,a2
        mv      a2,s1
        beqz    a2,core.fmt.Formatter.pad.13
core.fmt.Formatter.pad.12:
        mv      s1,a2
        mv      s0,a1
core.fmt.Formatter.pad.13:
        beqz    a0,core.fmt.Formatter.pad.19
        lw      s3,12(s2)
        li      a0,16
        bgeu    s0,a0,core.fmt.Formatter.pad.18
        li      a0,0
        beqz    s0,core.fmt.Formatter.pad.15
        li      a1,-65
        mv      a2,s0
        mv      a3,s1
core.fmt.Formatter.pad.14:
        lb      a4,0(a3)
        addi    a3,a3,1
        slt     a4,a1,a4
        addi    a2,a2,-1
        add     a0,a0,a4
        bnez    a2,core.fmt.Formatter.pad.14
core.fmt.Formatter.pad.15:
        bgeu    a0,s3,core.fmt.Formatter.pad.19
core.fmt.Formatter.pad.16:
        lbu     a1,32(s2)
        li      a3,3
        li      a2,0
        beq     a1,a3,core.fmt.Formatter.pad.17
        mv      a2,a1
core.fmt.Formatter.pad.17:
        andi    a1,a2,3
        sub     a0,s3,a0
        beqz    a1,core.fmt.Formatter.pad.20
        li      a2,1
        bne     a1,a2,core.fmt.Formatter.pad.21
        li      s5,0
        j       core.fmt.Formatter.pad.22
core.fmt.Formatter.pad.18:
        mv      a0,s1
        mv      a1,s0
        call    core.str.count.do_count_chars
        bltu    a0,s3,core.fmt.Formatter.pad.16
core.fmt.Formatter.pad.19:
        lw      a1,28(s2)
        lw      a0,24(s2)
        lw      t1,12(a1)
        mv      a1,s1
        mv      a2,s0
        lw      ra,28(sp)
        lw      s0,24(sp)
        lw      s1,20(sp)
        lw      s2,16(sp)
        lw      s3,12(sp)
        lw      s4,8(sp)
        lw      s5,4(sp)
        lw      s6,0(sp)
        addi    sp,sp,32
        jr      t1
core.fmt.Formatter.pad.20:
        mv      s5,a0
        li      a0,0
        j       core.fmt.Formatter.pad.22
core.fmt.Formatter.pad.21:
        addi    a1,a0,1
        srli    a0,a0,1
        srli    s5,a1,1
core.fmt.Formatter.pad.22:
        lw      s3,24(s2)
        lw      s6,28(s2)
        lw      s2,4(s2)
        addi    s4,a0,1
core.fmt.Formatter.pad.23:
        addi    s4,s4,-1
        beqz    s4,core.fmt.Formatter.pad.24
        lw      a2,16(s6)
        mv      a0,s3
        mv      a1,s2
        jalr    a2
        beqz    a0,core.fmt.Formatter.pad.23
        li      s4,1
        j       core.fmt.Formatter.pad.29
core.fmt.Formatter.pad.24:
        li      a0,0x110000
        li      s4,1
        beq     s2,a0,core.fmt.Formatter.pad.29
        lw      a3,12(s6)
        mv      a0,s3
        mv      a1,s1
        mv      a2,s0
        jalr    a3
        bnez    a0,core.fmt.Formatter.pad.29
        li      s0,0
core.fmt.Formatter.pad.25:
        beq     s5,s0,core.fmt.Formatter.pad.27
        lw      a2,16(s6)
        addi    s0,s0,1
        mv      a0,s3
        mv      a1,s2
        jalr    a2
        beqz    a0,core.fmt.Formatter.pad.25
        addi    a0,s0,-1
        j       core.fmt.Formatter.pad.28
core.fmt.Formatter.pad.26:
        li      a2,0
        beqz    a2,core.fmt.Formatter.pad.13
        j       core.fmt.Formatter.pad.12
core.fmt.Formatter.pad.27:
        mv      a0,s5
core.fmt.Formatter.pad.28:
        sltu    s4,a0,s5
core.fmt.Formatter.pad.29:
        mv      a0,s4
        lw      ra,28(sp)
        lw      s0,24(sp)
        lw      s1,20(sp)
        lw      s2,16(sp)
        lw      s3,12(sp)
        lw      s4,8(sp)
        lw      s5,4(sp)
        lw      s6,0(sp)
        addi    sp,sp,32
        ret

core.fmt.Formatter.debug_lower_hex:
        lbu     a0,0(a0)
        slli    a0,a0,27
        srli    a0,a0,31
        ret

core.fmt.Formatter.debug_upper_hex:
        lbu     a0,0(a0)
        slli    a0,a0,26
        srli    a0,a0,31
        ret

core.fmt.Formatter.debug_list:
        addi    sp,sp,-16
        sw      ra,12(sp)
        sw      s0,8(sp)
        sw      s1,4(sp)
        mv      s0,a1
        lw      a1,28(a1)
        lw      a3,24(s0)
        lw      a4,12(a1)
        mv      s1,a0
        lui     a0,%hi(anon.d66a73ded65ac612f4034618de25475a.45.llvm.14375515377028938436)
        addi    a1,a0,%lo(anon.d66a73ded65ac612f4034618de25475a.45.llvm.14375515377028938436)
        li      a2,1
        mv      a0,a3
        jalr    a4
        sw      s0,0(s1)
        sb      a0,4(s1)
        sb      zero,5(s1)
        lw      ra,12(sp)
        lw      s0,8(sp)
        lw      s1,4(sp)
        addi    sp,sp,16
        ret

_char_as_core.fmt.Debug_.fmt:
        addi    sp,sp,-64
        sw      ra,60(sp)
        sw      s0,56(sp)
        sw      s1,52(sp)
        sw      s2,48(sp)
        sw      s3,44(sp)
        sw      s4,40(sp)
        sw      s5,36(sp)
        sw      s6,32(sp)
        sw      s7,28(sp)
        sw      s8,24(sp)
        sw      s9,20(sp)
        sw      s10,16(sp)
        lw      a2,28(a1)
        lw      s0,24(a1)
        lw      t1,16(a2)
        mv      s1,a0
        li      a1,39
        li      s2,39
        mv      a0,s0
        sw      t1,12(sp)
        jalr    t1
        beqz    a0,_char_as_core.fmt.Debug_.fmt.2
_char_as_core.fmt.Debug_.fmt.1:
        li      a0,1
        lw      ra,60(sp)
        lw      s0,56(sp)
        lw      s1,52(sp)
        lw      s2,48(sp)
        lw      s3,44(sp)
        lw      s4,40(sp)
        lw      s5,36(sp)
        lw      s6,32(sp)
        lw      s7,28(sp)
        lw      s8,24(sp)
        lw      s9,20(sp)
        lw      s10,16(sp)
        addi    sp,sp,64
        ret
_char_as_core.fmt.Debug_.fmt.2:
        lw      s1,0(s1)
        li      s5,2
        bltu    s2,s1,_char_as_core.fmt.Debug_.fmt.4
        slli    a0,s1,2
        lui     a1,%hi(rodata.194)
        addi    a1,a1,%lo(rodata.194)
        add     a0,a0,a1
        lw      a0,0(a0)
        li      s4,48
        jr      a0
_char_as_core.fmt.Debug_.fmt.3:
        li      s4,116
        j       _char_as_core.fmt.Debug_.fmt.9
_char_as_core.fmt.Debug_.fmt.4:
        li      a0,92
        beq     s1,a0,_char_as_core.fmt.Debug_.fmt.6
_char_as_core.fmt.Debug_.fmt.5:
        mv      a0,s1
        call    core.unicode.unicode_data.grapheme_extend.lookup
        bnez    a0,_char_as_core.fmt.Debug_.fmt.10
        mv      a0,s1
        call    core.unicode.printable.is_printable
        beqz    a0,_char_as_core.fmt.Debug_.fmt.10
        li      s5,1
_char_as_core.fmt.Debug_.fmt.6:
        j       _char_as_core.fmt.Debug_.fmt.11
_char_as_core.fmt.Debug_.fmt.7:
        li      s4,110
        j       _char_as_core.fmt.Debug_.fmt.9
_char_as_core.fmt.Debug_.fmt.8:
        li      s4,114
_char_as_core.fmt.Debug_.fmt.9:
        j       _char_as_core.fmt.Debug_.fmt.12
_char_as_core.fmt.Debug_.fmt.10:
        ori     a0,s1,1
        srli    a1,a0,1
        or      a0,a0,a1
        srli    a1,a0,2
        or      a0,a0,a1
        srli    a1,a0,4
        or      a0,a0,a1
        srli    a1,a0,8
        or      a0,a0,a1
        srli    a1,a0,16
        or      a0,a0,a1
        not     a0,a0
        srli    a1,a0,1
        li      a2,0x55555555
        and     a1,a1,a2
        sub     a0,a0,a1
        li      a1,0x33333333
        and     a2,a0,a1
        srli    a0,a0,2
        and     a0,a0,a1
        add     a0,a2,a0
        srli    a1,a0,4
        add     a0,a0,a1
        li      a1,0xf0f0f0f
        and     a0,a0,a1
        li      a1,0x1010101
        mul     a0,a0,a1
        srli    a0,a0,26
        xori    s2,a0,7
        li      s3,5
        li      s5,3
_char_as_core.fmt.Debug_.fmt.11:
        mv      s4,s1
_char_as_core.fmt.Debug_.fmt.12:
        li      s1,-256
        li      s6,-1
        li      s7,1
        li      s8,2
        lui     a0,%hi(rodata.234)
        addi    s9,a0,%lo(rodata.234)
        li      s10,10
        j       _char_as_core.fmt.Debug_.fmt.15
_char_as_core.fmt.Debug_.fmt.13:
        li      a1,92
        li      s5,1
_char_as_core.fmt.Debug_.fmt.14:
        mv      a0,s0
        lw      t1,12(sp)
        jalr    t1
        bnez    a0,_char_as_core.fmt.Debug_.fmt.1
_char_as_core.fmt.Debug_.fmt.15:
        bge     s7,s5,_char_as_core.fmt.Debug_.fmt.17
        beq     s5,s8,_char_as_core.fmt.Debug_.fmt.13
        andi    a0,s3,255
        slli    a0,a0,2
        add     a0,a0,s9
        lw      a0,0(a0)
        jr      a0
_char_as_core.fmt.Debug_.fmt.16:
        and     s2,s2,s6
        and     s3,s3,s1
        li      a1,125
        j       _char_as_core.fmt.Debug_.fmt.24
_char_as_core.fmt.Debug_.fmt.17:
        bne     s5,s7,_char_as_core.fmt.Debug_.fmt.25
        li      s5,0
        mv      a1,s4
        j       _char_as_core.fmt.Debug_.fmt.14
_char_as_core.fmt.Debug_.fmt.18:
        slli    a0,s2,2
        srl     a0,s4,a0
        andi    a0,a0,15
        li      a1,48
        bltu    a0,s10,_char_as_core.fmt.Debug_.fmt.19
        li      a1,87
_char_as_core.fmt.Debug_.fmt.19:
        add     a1,a1,a0
        beqz    s2,_char_as_core.fmt.Debug_.fmt.23
        addi    s2,s2,-1
        j       _char_as_core.fmt.Debug_.fmt.24
_char_as_core.fmt.Debug_.fmt.20:
        and     s2,s2,s6
        and     a0,s3,s1
        ori     s3,a0,2
        li      a1,123
        j       _char_as_core.fmt.Debug_.fmt.24
_char_as_core.fmt.Debug_.fmt.21:
        and     s2,s2,s6
        and     a0,s3,s1
        ori     s3,a0,3
        li      a1,117
        j       _char_as_core.fmt.Debug_.fmt.24
_char_as_core.fmt.Debug_.fmt.22:
        and     s2,s2,s6
        and     a0,s3,s1
        ori     s3,a0,4
        li      a1,92
        j       _char_as_core.fmt.Debug_.fmt.24
_char_as_core.fmt.Debug_.fmt.23:
        and     s2,s2,s6
        and     a0,s3,s1
        ori     s3,a0,1
_char_as_core.fmt.Debug_.fmt.24:
        li      s5,3
        j       _char_as_core.fmt.Debug_.fmt.14
_char_as_core.fmt.Debug_.fmt.25:
        li      a1,39
        mv      a0,s0
        lw      t1,12(sp)
        lw      ra,60(sp)
        lw      s0,56(sp)
        lw      s1,52(sp)
        lw      s2,48(sp)
        lw      s3,44(sp)
        lw      s4,40(sp)
        lw      s5,36(sp)
        lw      s6,32(sp)
        lw      s7,28(sp)
        lw      s8,24(sp)
        lw      s9,20(sp)
        lw      s10,16(sp)
        addi    sp,sp,64
        jr      t1

__T_as_core.fmt.Display_.fmt.3:
        lw      a3,0(a0)
        lw      a2,4(a0)
        mv      a0,a1
        mv      a1,a3
        tail    core.fmt.Formatter.pad

__T_as_core.fmt.Display_.fmt.2:
        addi    sp,sp,-32
        sw      ra,28(sp)
        lw      a2,0(a0)
        lw      a0,20(a2)
        sw      a0,20(sp)
        lw      a0,16(a2)
        sw      a0,16(sp)
        lw      a0,12(a2)
        sw      a0,12(sp)
        lw      a0,8(a2)
        sw      a0,8(sp)
        lw      a3,4(a2)
        lw      a0,24(a1)
        sw      a3,4(sp)
        lw      a2,0(a2)
        lw      a1,28(a1)
        sw      a2,0(sp)
        mv      a2,sp
        call    core.fmt.write
        lw      ra,28(sp)
        addi    sp,sp,32
        ret

__T_as_core.fmt.Display_.fmt:
        lw      a0,0(a0)
        lw      a3,0(a0)
        lw      a2,4(a0)
        mv      a0,a1
        mv      a1,a3
        tail    core.fmt.Formatter.pad

core.ptr.drop_in_place__u64_:
core.ptr.drop_in_place__core.option.Option_usize__:
        ret

core.panicking.panic:
        addi    sp,sp,-32
        sw      a0,24(sp)
        sw      a1,28(sp)
        addi    a0,sp,24
        sw      a0,0(sp)
        li      a0,1
        sw      a0,4(sp)
        sw      zero,8(sp)
        lui     a0,%hi(anon.e66d31e934930cb5a5f0e22b6120d3c4.2.llvm.9959610619709681070)
        addi    a0,a0,%lo(anon.e66d31e934930cb5a5f0e22b6120d3c4.2.llvm.9959610619709681070)
        sw      a0,16(sp)
        sw      zero,20(sp)
        mv      a0,sp
        mv      a1,a2
        call    core.panicking.panic_fmt
        .word   0xc0001073              # unimp

core.panicking.panic_bounds_check:
        addi    sp,sp,-48
        sw      a0,0(sp)
        sw      a1,4(sp)
        addi    a0,sp,4
        sw      a0,32(sp)
        lui     a0,%hi(core.fmt.num.imp._impl_core.fmt.Display_for_usize_.fmt)
        addi    a0,a0,%lo(core.fmt.num.imp._impl_core.fmt.Display_for_usize_.fmt)
        sw      a0,36(sp)
        mv      a1,sp
        sw      a1,40(sp)
        sw      a0,44(sp)
        lui     a0,%hi(rodata.2b8)
        addi    a0,a0,%lo(rodata.2b8)
        sw      a0,8(sp)
        li      a0,2
        sw      a0,12(sp)
        sw      zero,16(sp)
        addi    a1,sp,32
        sw      a1,24(sp)
        sw      a0,28(sp)
        addi    a0,sp,8
        mv      a1,a2
        call    core.panicking.panic_fmt
        .word   0xc0001073              # unimp

core.panicking.panic_fmt:
        addi    sp,sp,-32
        lui     a2,%hi(anon.e66d31e934930cb5a5f0e22b6120d3c4.2.llvm.9959610619709681070)
        addi    a2,a2,%lo(anon.e66d31e934930cb5a5f0e22b6120d3c4.2.llvm.9959610619709681070)
        sw      a2,8(sp)
        lui     a2,%hi(rodata.2e4)
        addi    a2,a2,%lo(rodata.2e4)
        sw      a2,12(sp)
        sw      a0,16(sp)
        sw      a1,20(sp)
        li      a0,1
        sb      a0,24(sp)
        addi    a0,sp,8
        call    rust_begin_unwind
        .word   0xc0001073              # unimp

core.fmt.num.imp.fmt_u32:
        addi    sp,sp,-64
        sw      ra,60(sp)
        sw      s0,56(sp)
        sw      s1,52(sp)
        mv      a3,a2
        srli    a4,a0,4
        li      a5,625
        li      a2,39
        bgeu    a4,a5,core.fmt.num.imp.fmt_u32.3
        li      a4,99
        bltu    a4,a0,core.fmt.num.imp.fmt_u32.5
core.fmt.num.imp.fmt_u32.1:
        li      a4,10
        bgeu    a0,a4,core.fmt.num.imp.fmt_u32.6
core.fmt.num.imp.fmt_u32.2:
        addi    a2,a2,-1
        addi    a4,sp,13
        add     a4,a4,a2
        addi    a0,a0,48
        sb      a0,0(a4)
        j       core.fmt.num.imp.fmt_u32.7
core.fmt.num.imp.fmt_u32.3:
        li      a2,0
        li      a4,0xd1b71759
        li      a5,0x2710
        li      a6,5243
        li      a7,100
        lui     t0,%hi(anon.d8baefb1ceef499e2c940a0845b5f94b.5.llvm.9151028078758918862)
        addi    t0,t0,%lo(anon.d8baefb1ceef499e2c940a0845b5f94b.5.llvm.9151028078758918862)
        addi    t1,sp,13
        li      t2,0x5f5e0ff
core.fmt.num.imp.fmt_u32.4:
        mv      t3,a0
        mulhu   a0,a0,a4
        srli    a0,a0,13
        mul     t4,a0,a5
        sub     t4,t3,t4
        slli    t5,t4,16
        srli    t5,t5,18
        mul     t5,t5,a6
        srli    t5,t5,17
        slli    t6,t5,1
        mul     t5,t5,a7
        sub     t4,t4,t5
        slli    t4,t4,17
        srli    t4,t4,16
        add     t5,t6,t0
        add     t6,t1,a2
        lbu     s0,0(t5)
        lb      t5,1(t5)
        add     t4,t4,t0
        lb      s1,1(t4)
        lbu     t4,0(t4)
        sb      t5,36(t6)
        sb      s0,35(t6)
        sb      s1,38(t6)
        sb      t4,37(t6)
        addi    a2,a2,-4
        bltu    t2,t3,core.fmt.num.imp.fmt_u32.4
        addi    a2,a2,39
        li      a4,99
        bgeu    a4,a0,core.fmt.num.imp.fmt_u32.1
core.fmt.num.imp.fmt_u32.5:
        slli    a4,a0,16
        srli    a4,a4,18
        li      a5,5243
        mul     a4,a4,a5
        srli    a4,a4,17
        li      a5,100
        mul     a5,a4,a5
        sub     a0,a0,a5
        slli    a0,a0,17
        srli    a0,a0,16
        addi    a2,a2,-2
        lui     a5,%hi(anon.d8baefb1ceef499e2c940a0845b5f94b.5.llvm.9151028078758918862)
        addi    a5,a5,%lo(anon.d8baefb1ceef499e2c940a0845b5f94b.5.llvm.9151028078758918862)
        add     a0,a0,a5
        lb      a5,1(a0)
        lbu     a0,0(a0)
        addi    a6,sp,13
        add     a6,a6,a2
        sb      a5,1(a6)
        sb      a0,0(a6)
        mv      a0,a4
        li      a4,10
        bltu    a0,a4,core.fmt.num.imp.fmt_u32.2
core.fmt.num.imp.fmt_u32.6:
        slli    a0,a0,1
        addi    a2,a2,-2
        lui     a4,%hi(anon.d8baefb1ceef499e2c940a0845b5f94b.5.llvm.9151028078758918862)
        addi    a4,a4,%lo(anon.d8baefb1ceef499e2c940a0845b5f94b.5.llvm.9151028078758918862)
        add     a0,a0,a4
        lb      a4,1(a0)
        lbu     a0,0(a0)
        addi    a5,sp,13
        add     a5,a5,a2
        sb      a4,1(a5)
        sb      a0,0(a5)
core.fmt.num.imp.fmt_u32.7:
        addi    a0,sp,13
        add     a4,a0,a2
        li      a0,39
        sub     a5,a0,a2
        lui     a0,%hi(text.panicked_at)
        addi    a2,a0,%lo(text.panicked_at)
        mv      a0,a3
        li      a3,0
        call    core.fmt.Formatter.pad_integral
        lw      ra,60(sp)
        lw      s0,56(sp)
        lw      s1,52(sp)
        addi    sp,sp,64
        ret

core.fmt.num.imp._impl_core.fmt.Display_for_u32_.fmt:
core.fmt.num.imp._impl_core.fmt.Display_for_usize_.fmt:
        lw      a0,0(a0)
        mv      a2,a1
        li      a1,1
        tail    core.fmt.num.imp.fmt_u32

_T_as_core.any.Any_.type_id:
        li      a0,0x3e1082bd
        li      a1,0xdba79b12
        ret

_core.panic.panic_info.PanicInfo_as_core.fmt.Display_.fmt:
        addi    sp,sp,-80
        sw      ra,76(sp)
        sw      s0,72(sp)
        sw      s1,68(sp)
        sw      s2,64(sp)
        sw      s3,60(sp)
        lw      s0,28(a1)
        lw      s1,24(a1)
        lw      a3,12(s0)
        mv      s2,a0
        lui     a0,%hi(text.panicked_at)
        addi    a1,a0,%lo(text.panicked_at)
        li      a2,12
        mv      a0,s1
        jalr    a3
        li      s3,1
        bnez    a0,_core.panic.panic_info.PanicInfo_as_core.fmt.Display_.fmt.4
        lw      a0,8(s2)
        beqz    a0,_core.panic.panic_info.PanicInfo_as_core.fmt.Display_.fmt.1
        sw      a0,4(sp)
        addi    a0,sp,4
        sw      a0,8(sp)
        lui     a0,%hi(__T_as_core.fmt.Display_.fmt.2)
        addi    a0,a0,%lo(__T_as_core.fmt.Display_.fmt.2)
        j       _core.panic.panic_info.PanicInfo_as_core.fmt.Display_.fmt.2
_core.panic.panic_info.PanicInfo_as_core.fmt.Display_.fmt.1:
        lw      a0,4(s2)
        lw      s3,0(s2)
        lw      a1,12(a0)
        mv      a0,s3
        jalr    a1
        li      a2,0xb8ae3dc7
        xor     a1,a1,a2
        li      a2,0x22b9f20b
        xor     a0,a0,a2
        or      a0,a0,a1
        bnez    a0,_core.panic.panic_info.PanicInfo_as_core.fmt.Display_.fmt.3
        sw      s3,4(sp)
        addi    a0,sp,4
        sw      a0,8(sp)
        lui     a0,%hi(__T_as_core.fmt.Display_.fmt)
        addi    a0,a0,%lo(__T_as_core.fmt.Display_.fmt)
_core.panic.panic_info.PanicInfo_as_core.fmt.Display_.fmt.2:
        sw      a0,12(sp)
        lui     a0,%hi(rodata.304)
        addi    a0,a0,%lo(rodata.304)
        sw      a0,32(sp)
        li      a0,2
        sw      a0,36(sp)
        sw      zero,40(sp)
        addi    a0,sp,8
        sw      a0,48(sp)
        li      s3,1
        sw      s3,52(sp)
        addi    a2,sp,32
        mv      a0,s1
        mv      a1,s0
        call    core.fmt.write
        bnez    a0,_core.panic.panic_info.PanicInfo_as_core.fmt.Display_.fmt.4
_core.panic.panic_info.PanicInfo_as_core.fmt.Display_.fmt.3:
        lw      a0,12(s2)
        addi    a1,a0,8
        addi    a2,a0,12
        sw      a0,8(sp)
        lui     a0,%hi(__T_as_core.fmt.Display_.fmt.3)
        addi    a0,a0,%lo(__T_as_core.fmt.Display_.fmt.3)
        sw      a0,12(sp)
        sw      a1,16(sp)
        lui     a0,%hi(core.fmt.num.imp._impl_core.fmt.Display_for_u32_.fmt)
        addi    a0,a0,%lo(core.fmt.num.imp._impl_core.fmt.Display_for_u32_.fmt)
        sw      a0,20(sp)
        sw      a2,24(sp)
        sw      a0,28(sp)
        lui     a0,%hi(anon.e66d31e934930cb5a5f0e22b6120d3c4.39.llvm.9959610619709681070)
        addi    a0,a0,%lo(anon.e66d31e934930cb5a5f0e22b6120d3c4.39.llvm.9959610619709681070)
        sw      a0,32(sp)
        li      a0,3
        sw      a0,36(sp)
        sw      zero,40(sp)
        addi    a1,sp,8
        sw      a1,48(sp)
        sw      a0,52(sp)
        addi    a2,sp,32
        mv      a0,s1
        mv      a1,s0
        call    core.fmt.write
        mv      s3,a0
_core.panic.panic_info.PanicInfo_as_core.fmt.Display_.fmt.4:
        mv      a0,s3
        lw      ra,76(sp)
        lw      s0,72(sp)
        lw      s1,68(sp)
        lw      s2,64(sp)
        lw      s3,60(sp)
        addi    sp,sp,80
        ret

core.str.count.do_count_chars:
        mv      a2,a0
        addi    a0,a0,3
        andi    a6,a0,-4
        sub     a4,a6,a2
        bltu    a1,a4,core.str.count.do_count_chars.1
        sub     a0,a1,a4
        sltiu   a3,a0,4
        li      a5,4
        sltu    a5,a5,a4
        or      a3,a5,a3
        beqz    a3,core.str.count.do_count_chars.4
core.str.count.do_count_chars.1:
        li      a0,0
        beqz    a1,core.str.count.do_count_chars.3
        li      a3,-65
core.str.count.do_count_chars.2:
        lb      a4,0(a2)
        addi    a2,a2,1
        slt     a4,a3,a4
        addi    a1,a1,-1
        add     a0,a0,a4
        bnez    a1,core.str.count.do_count_chars.2
core.str.count.do_count_chars.3:
        ret
core.str.count.do_count_chars.4:
        andi    a3,a0,3
        li      a5,0
        beqz    a4,core.str.count.do_count_chars.6
        sub     a1,a2,a6
        li      a6,-65
        mv      a7,a2
core.str.count.do_count_chars.5:
        lb      t0,0(a7)
        addi    a7,a7,1
        slt     t0,a6,t0
        addi    a1,a1,1
        add     a5,a5,t0
        bnez    a1,core.str.count.do_count_chars.5
core.str.count.do_count_chars.6:
        add     a1,a2,a4
        li      a6,0
        beqz    a3,core.str.count.do_count_chars.8
        andi    a2,a0,-4
        add     a4,a1,a2
        li      a2,-65
core.str.count.do_count_chars.7:
        lb      a7,0(a4)
        addi    a4,a4,1
        slt     a7,a2,a7
        addi    a3,a3,-1
        add     a6,a6,a7
        bnez    a3,core.str.count.do_count_chars.7
core.str.count.do_count_chars.8:
        srli    t0,a0,2
        li      a0,0x1010000
        addi    a4,a0,257
        li      a0,0xff0000
        addi    a2,a0,255
        li      a0,0x10000
        addi    a3,a0,1
        add     a0,a6,a5
        j       core.str.count.do_count_chars.10
core.str.count.do_count_chars.9:
        slli    t0,a7,2
        add     a1,a1,t0
        sub     t0,a5,a7
        andi    a7,a7,3
        and     t2,t1,a2
        srli    t1,t1,8
        and     t1,t1,a2
        add     t1,t1,t2
        mul     t1,t1,a3
        srli    t1,t1,16
        add     a0,t1,a0
        bnez    a7,core.str.count.do_count_chars.13
core.str.count.do_count_chars.10:
        beqz    t0,core.str.count.do_count_chars.3
        mv      a5,t0
        li      a6,192
        mv      a7,t0
        bltu    t0,a6,core.str.count.do_count_chars.11
        li      a7,192
core.str.count.do_count_chars.11:
        andi    a6,a7,252
        slli    t0,a6,2
        add     a6,a1,t0
        li      t1,0
        beqz    t0,core.str.count.do_count_chars.9
        mv      t0,a1
core.str.count.do_count_chars.12:
        lw      t2,0(t0)
        not     t3,t2
        srli    t3,t3,7
        srli    t2,t2,6
        lw      t4,4(t0)
        or      t2,t3,t2
        and     t2,t2,a4
        add     t1,t2,t1
        not     t2,t4
        srli    t2,t2,7
        srli    t3,t4,6
        lw      t4,8(t0)
        or      t2,t2,t3
        and     t2,t2,a4
        add     t1,t2,t1
        not     t2,t4
        srli    t2,t2,7
        srli    t3,t4,6
        lw      t4,12(t0)
        or      t2,t2,t3
        and     t2,t2,a4
        add     t1,t2,t1
        not     t2,t4
        srli    t2,t2,7
        srli    t3,t4,6
        or      t2,t2,t3
        and     t2,t2,a4
        addi    t0,t0,16
        add     t1,t2,t1
        bne     t0,a6,core.str.count.do_count_chars.12
        j       core.str.count.do_count_chars.9
core.str.count.do_count_chars.13:
        li      a1,192
        bltu    a5,a1,core.str.count.do_count_chars.14
        li      a5,192
core.str.count.do_count_chars.14:
        li      a1,0
        andi    a5,a5,3
        slli    a5,a5,2
core.str.count.do_count_chars.15:
        lw      a7,0(a6)
        addi    a6,a6,4
        not     t0,a7
        srli    t0,t0,7
        srli    a7,a7,6
        or      a7,t0,a7
        and     a7,a7,a4
        addi    a5,a5,-4
        add     a1,a7,a1
        bnez    a5,core.str.count.do_count_chars.15
        and     a4,a1,a2
        srli    a1,a1,8
        and     a1,a1,a2
        add     a1,a1,a4
        mul     a1,a1,a3
        srli    a1,a1,16
        add     a0,a1,a0
        ret

core.slice.memchr.memchr_general_case:
        addi    a3,a1,3
        andi    a3,a3,-4
        sub     a3,a3,a1
        andi    a4,a0,255
        beqz    a3,core.slice.memchr.memchr_general_case.3
        mv      a0,a2
        bltu    a2,a3,core.slice.memchr.memchr_general_case.1
        mv      a0,a3
core.slice.memchr.memchr_general_case.1:
        beqz    a0,core.slice.memchr.memchr_general_case.3
        li      a3,0
core.slice.memchr.memchr_general_case.2:
        add     a5,a1,a3
        lbu     a5,0(a5)
        beq     a5,a4,core.slice.memchr.memchr_general_case.11
        addi    a3,a3,1
        bne     a0,a3,core.slice.memchr.memchr_general_case.2
        addi    a3,a2,-8
        bgeu    a3,a0,core.slice.memchr.memchr_general_case.4
        j       core.slice.memchr.memchr_general_case.7
core.slice.memchr.memchr_general_case.3:
        li      a0,0
        addi    a3,a2,-8
core.slice.memchr.memchr_general_case.4:
        li      a5,0xfefefeff
        li      a6,0x80808080
        li      a7,0x1010101
        mul     a7,a4,a7
core.slice.memchr.memchr_general_case.5:
        add     t0,a1,a0
        lw      t1,0(t0)
        lw      t0,4(t0)
        xor     t1,t1,a7
        not     t2,t1
        add     t1,t1,a5
        and     t2,t2,a6
        and     t1,t2,t1
        xor     t0,t0,a7
        not     t2,t0
        add     t0,t0,a5
        and     t2,t2,a6
        and     t0,t2,t0
        or      t0,t1,t0
        bnez    t0,core.slice.memchr.memchr_general_case.6
        addi    a0,a0,8
        bgeu    a3,a0,core.slice.memchr.memchr_general_case.5
core.slice.memchr.memchr_general_case.6:
        bltu    a2,a0,core.slice.memchr.memchr_general_case.12
core.slice.memchr.memchr_general_case.7:
        beq     a0,a2,core.slice.memchr.memchr_general_case.9
        li      a3,0
        add     a1,a1,a0
        sub     a2,a0,a2
core.slice.memchr.memchr_general_case.8:
        add     a5,a1,a3
        lbu     a5,0(a5)
        beq     a5,a4,core.slice.memchr.memchr_general_case.10
        addi    a3,a3,1
        add     a5,a2,a3
        bnez    a5,core.slice.memchr.memchr_general_case.8
core.slice.memchr.memchr_general_case.9:
        li      a0,0
        mv      a1,a3
        ret
core.slice.memchr.memchr_general_case.10:
        add     a3,a0,a3
core.slice.memchr.memchr_general_case.11:
        li      a0,1
        mv      a1,a3
        ret
core.slice.memchr.memchr_general_case.12:
        lui     a1,%hi(anon.6faced9d47e33af16d5b46738c8e8b19.38.llvm.6802945453016007571)
        addi    a3,a1,%lo(anon.6faced9d47e33af16d5b46738c8e8b19.38.llvm.6802945453016007571)
        mv      a1,a2
        mv      a2,a3
        call    core.slice.index.slice_start_index_len_fail
        .word   0xc0001073              # unimp

core.unicode.printable.check:
        slli    t0,a0,16
        beqz    a2,core.unicode.printable.check.5
        mv      a7,a0
        li      a0,0
        srli    t1,t0,24
        slli    a2,a2,1
        add     a2,a1,a2
        andi    t2,a7,255
        j       core.unicode.printable.check.2
core.unicode.printable.check.1:
        sltu    a0,t1,t4
        xor     t3,a1,a2
        seqz    t3,t3
        or      t3,a0,t3
        mv      a0,a7
        bnez    t3,core.unicode.printable.check.5
core.unicode.printable.check.2:
        lbu     t4,0(a1)
        lbu     t3,1(a1)
        addi    a1,a1,2
        add     a7,a0,t3
        bne     t4,t1,core.unicode.printable.check.1
        bltu    a7,a0,core.unicode.printable.check.13
        bltu    a4,a7,core.unicode.printable.check.14
        add     a0,a3,a0
core.unicode.printable.check.3:
        beqz    t3,core.unicode.printable.check.4
        lbu     t4,0(a0)
        addi    a0,a0,1
        addi    t3,t3,-1
        bne     t4,t2,core.unicode.printable.check.3
        j       core.unicode.printable.check.10
core.unicode.printable.check.4:
        mv      a0,a7
        bne     a1,a2,core.unicode.printable.check.2
core.unicode.printable.check.5:
        beqz    a6,core.unicode.printable.check.11
        add     a1,a5,a6
        srli    a2,t0,16
        li      a0,1
core.unicode.printable.check.6:
        lbu     a3,0(a5)
        slli    a4,a3,24
        srai    a4,a4,24
        addi    a6,a5,1
        bltz    a4,core.unicode.printable.check.7
        mv      a5,a6
        sub     a2,a2,a3
        bgez    a2,core.unicode.printable.check.8
        j       core.unicode.printable.check.9
core.unicode.printable.check.7:
        beq     a6,a1,core.unicode.printable.check.12
        lbu     a3,1(a5)
        addi    a5,a5,2
        andi    a4,a4,127
        slli    a4,a4,8
        or      a3,a4,a3
        sub     a2,a2,a3
        bltz    a2,core.unicode.printable.check.9
core.unicode.printable.check.8:
        xori    a0,a0,1
        bne     a5,a1,core.unicode.printable.check.6
core.unicode.printable.check.9:
        andi    a0,a0,1
        ret
core.unicode.printable.check.10:
        li      a0,0
        andi    a0,a0,1
        ret
core.unicode.printable.check.11:
        li      a0,1
        andi    a0,a0,1
        ret
core.unicode.printable.check.12:
        lui     a0,%hi(text.called_Option_unwrap)
        addi    a0,a0,%lo(text.called_Option_unwrap)
        lui     a1,%hi(rodata.3d4)
        addi    a2,a1,%lo(rodata.3d4)
        li      a1,43
        call    core.panicking.panic
        .word   0xc0001073              # unimp
core.unicode.printable.check.13:
        lui     a1,%hi(rodata.3c4)
        addi    a2,a1,%lo(rodata.3c4)
        mv      a1,a7
        call    core.slice.index.slice_index_order_fail
        .word   0xc0001073              # unimp
core.unicode.printable.check.14:
        lui     a0,%hi(rodata.3c4)
        addi    a2,a0,%lo(rodata.3c4)
        mv      a0,a7
        mv      a1,a4
        call    core.slice.index.slice_end_index_len_fail
        .word   0xc0001073              # unimp

core.unicode.printable.is_printable:
        li      a1,32
        bgeu    a0,a1,core.unicode.printable.is_printable.1
        li      a0,0
        ret
core.unicode.printable.is_printable.1:
        li      a2,127
        li      a1,1
        bltu    a0,a2,core.unicode.printable.is_printable.4
        srli    a1,a0,16
        bnez    a1,core.unicode.printable.is_printable.2
        lui     a1,%hi(anon.6faced9d47e33af16d5b46738c8e8b19.45.llvm.6802945453016007571)
        addi    a1,a1,%lo(anon.6faced9d47e33af16d5b46738c8e8b19.45.llvm.6802945453016007571)
        lui     a2,%hi(anon.6faced9d47e33af16d5b46738c8e8b19.46.llvm.6802945453016007571)
        addi    a3,a2,%lo(anon.6faced9d47e33af16d5b46738c8e8b19.46.llvm.6802945453016007571)
        lui     a2,%hi(anon.6faced9d47e33af16d5b46738c8e8b19.47.llvm.6802945453016007571)
        addi    a5,a2,%lo(anon.6faced9d47e33af16d5b46738c8e8b19.47.llvm.6802945453016007571)
        li      a2,40
        li      a4,288
        li      a6,303
        tail    core.unicode.printable.check
core.unicode.printable.is_printable.2:
        srli    a1,a0,17
        bnez    a1,core.unicode.printable.is_printable.3
        lui     a1,%hi(anon.6faced9d47e33af16d5b46738c8e8b19.48.llvm.6802945453016007571)
        addi    a1,a1,%lo(anon.6faced9d47e33af16d5b46738c8e8b19.48.llvm.6802945453016007571)
        lui     a2,%hi(anon.6faced9d47e33af16d5b46738c8e8b19.49.llvm.6802945453016007571)
        addi    a3,a2,%lo(anon.6faced9d47e33af16d5b46738c8e8b19.49.llvm.6802945453016007571)
        lui     a2,%hi(anon.6faced9d47e33af16d5b46738c8e8b19.50.llvm.6802945453016007571)
        addi    a5,a2,%lo(anon.6faced9d47e33af16d5b46738c8e8b19.50.llvm.6802945453016007571)
        li      a2,42
        li      a4,192
        li      a6,438
        tail    core.unicode.printable.check
core.unicode.printable.is_printable.3:
        li      a1,0x1fffe0
        and     a2,a0,a1
        li      a3,0x2a6e0
        xor     a2,a2,a3
        snez    a2,a2
        li      a3,0xfffd48c7
        add     a3,a0,a3
        li      a4,6
        sltu    a3,a4,a3
        and     a2,a2,a3
        ori     a1,a1,30
        and     a1,a0,a1
        li      a3,0x2b81e
        xor     a1,a1,a3
        snez    a1,a1
        li      a3,0xfffd3150
        add     a3,a0,a3
        sltiu   a3,a3,-14
        and     a1,a1,a2
        and     a1,a1,a3
        li      a2,0xfffd0800
        add     a2,a0,a2
        li      a3,-3103
        sltu    a2,a2,a3
        and     a1,a1,a2
        li      a2,0xfffd0000
        add     a2,a0,a2
        sltiu   a2,a2,-1506
        and     a1,a1,a2
        li      a2,0xfff1ff00
        add     a2,a0,a2
        li      a3,0xfff5124b
        sltu    a2,a2,a3
        and     a1,a1,a2
        li      a2,0xe01f0
        sltu    a0,a0,a2
        and     a1,a0,a1
core.unicode.printable.is_printable.4:
        mv      a0,a1
        ret

core.ops.function.FnOnce.call_once.2:
        call    core.slice.index.slice_end_index_len_fail_rt
        .word   0xc0001073              # unimp

core.ops.function.FnOnce.call_once.3:
        call    core.slice.index.slice_index_order_fail_rt
        .word   0xc0001073              # unimp

core.ops.function.FnOnce.call_once.4:
        call    core.slice.index.slice_start_index_len_fail_rt
        .word   0xc0001073              # unimp

core.intrinsics.const_eval_select:
        call    core.ops.function.FnOnce.call_once.4
        .word   0xc0001073              # unimp

core.intrinsics.const_eval_select.2:
        call    core.ops.function.FnOnce.call_once.2
        .word   0xc0001073              # unimp

core.intrinsics.const_eval_select.3:
        call    core.ops.function.FnOnce.call_once.3
        .word   0xc0001073              # unimp

_core.ops.range.Range_Idx__as_core.fmt.Debug_.fmt:
        addi    sp,sp,-144
        sw      ra,140(sp)
        sw      s0,136(sp)
        sw      s1,132(sp)
        mv      s0,a1
        lw      a1,0(a1)
        andi    a2,a1,16
        mv      s1,a0
        bnez    a2,_core.ops.range.Range_Idx__as_core.fmt.Debug_.fmt.1
        andi    a0,a1,32
        bnez    a0,_core.ops.range.Range_Idx__as_core.fmt.Debug_.fmt.4
        lw      a0,0(s1)
        li      a1,1
        mv      a2,s0
        call    core.fmt.num.imp.fmt_u32
        beqz    a0,_core.ops.range.Range_Idx__as_core.fmt.Debug_.fmt.8
        j       _core.ops.range.Range_Idx__as_core.fmt.Debug_.fmt.17
_core.ops.range.Range_Idx__as_core.fmt.Debug_.fmt.1:
        li      a1,0
        lw      a6,0(s1)
        mv      a0,sp
        li      a2,10
        li      a3,15
        j       _core.ops.range.Range_Idx__as_core.fmt.Debug_.fmt.3
_core.ops.range.Range_Idx__as_core.fmt.Debug_.fmt.2:
        add     t0,a0,a1
        srli    a6,a4,4
        add     a5,a7,a5
        sb      a5,127(t0)
        addi    a1,a1,-1
        bgeu    a3,a4,_core.ops.range.Range_Idx__as_core.fmt.Debug_.fmt.7
_core.ops.range.Range_Idx__as_core.fmt.Debug_.fmt.3:
        mv      a4,a6
        andi    a5,a6,15
        li      a7,48
        bltu    a5,a2,_core.ops.range.Range_Idx__as_core.fmt.Debug_.fmt.2
        li      a7,87
        j       _core.ops.range.Range_Idx__as_core.fmt.Debug_.fmt.2
_core.ops.range.Range_Idx__as_core.fmt.Debug_.fmt.4:
        li      a1,0
        lw      a6,0(s1)
        mv      a0,sp
        li      a2,10
        li      a3,15
        j       _core.ops.range.Range_Idx__as_core.fmt.Debug_.fmt.6
_core.ops.range.Range_Idx__as_core.fmt.Debug_.fmt.5:
        add     t0,a0,a1
        srli    a6,a4,4
        add     a5,a7,a5
        sb      a5,127(t0)
        addi    a1,a1,-1
        bgeu    a3,a4,_core.ops.range.Range_Idx__as_core.fmt.Debug_.fmt.7
_core.ops.range.Range_Idx__as_core.fmt.Debug_.fmt.6:
        mv      a4,a6
        andi    a5,a6,15
        li      a7,48
        bltu    a5,a2,_core.ops.range.Range_Idx__as_core.fmt.Debug_.fmt.5
        li      a7,55
        j       _core.ops.range.Range_Idx__as_core.fmt.Debug_.fmt.5
_core.ops.range.Range_Idx__as_core.fmt.Debug_.fmt.7:
        addi    a0,a1,128
        li      a2,129
        bgeu    a0,a2,_core.ops.range.Range_Idx__as_core.fmt.Debug_.fmt.19
        neg     a5,a1
        mv      a0,sp
        add     a0,a0,a1
        addi    a4,a0,128
        lui     a0,%hi(anon.d8baefb1ceef499e2c940a0845b5f94b.4.llvm.9151028078758918862)
        addi    a2,a0,%lo(anon.d8baefb1ceef499e2c940a0845b5f94b.4.llvm.9151028078758918862)
        li      a1,1
        li      a3,2
        mv      a0,s0
        call    core.fmt.Formatter.pad_integral
        bnez    a0,_core.ops.range.Range_Idx__as_core.fmt.Debug_.fmt.17
_core.ops.range.Range_Idx__as_core.fmt.Debug_.fmt.8:
        lw      a0,24(s0)
        lw      a1,28(s0)
        lui     a2,%hi(rodata.950)
        addi    a2,a2,%lo(rodata.950)
        sw      a2,0(sp)
        li      a2,1
        sw      a2,4(sp)
        sw      zero,8(sp)
        lui     a2,%hi(text.range_start_index_ou)
        addi    a2,a2,%lo(text.range_start_index_ou)
        sw      a2,16(sp)
        sw      zero,20(sp)
        mv      a2,sp
        call    core.fmt.write
        bnez    a0,_core.ops.range.Range_Idx__as_core.fmt.Debug_.fmt.17
        lw      a0,0(s0)
        andi    a1,a0,16
        bnez    a1,_core.ops.range.Range_Idx__as_core.fmt.Debug_.fmt.9
        andi    a0,a0,32
        bnez    a0,_core.ops.range.Range_Idx__as_core.fmt.Debug_.fmt.12
        lw      a0,4(s1)
        li      a1,1
        mv      a2,s0
        call    core.fmt.num.imp.fmt_u32
        j       _core.ops.range.Range_Idx__as_core.fmt.Debug_.fmt.16
_core.ops.range.Range_Idx__as_core.fmt.Debug_.fmt.9:
        li      a1,0
        lw      a6,4(s1)
        mv      a0,sp
        li      a2,10
        li      a3,15
        j       _core.ops.range.Range_Idx__as_core.fmt.Debug_.fmt.11
_core.ops.range.Range_Idx__as_core.fmt.Debug_.fmt.10:
        add     t0,a0,a1
        srli    a6,a4,4
        add     a5,a7,a5
        sb      a5,127(t0)
        addi    a1,a1,-1
        bgeu    a3,a4,_core.ops.range.Range_Idx__as_core.fmt.Debug_.fmt.15
_core.ops.range.Range_Idx__as_core.fmt.Debug_.fmt.11:
        mv      a4,a6
        andi    a5,a6,15
        li      a7,48
        bltu    a5,a2,_core.ops.range.Range_Idx__as_core.fmt.Debug_.fmt.10
        li      a7,87
        j       _core.ops.range.Range_Idx__as_core.fmt.Debug_.fmt.10
_core.ops.range.Range_Idx__as_core.fmt.Debug_.fmt.12:
        li      a1,0
        lw      a6,4(s1)
        mv      a0,sp
        li      a2,10
        li      a3,15
        j       _core.ops.range.Range_Idx__as_core.fmt.Debug_.fmt.14
_core.ops.range.Range_Idx__as_core.fmt.Debug_.fmt.13:
        add     t0,a0,a1
        srli    a6,a4,4
        add     a5,a7,a5
        sb      a5,127(t0)
        addi    a1,a1,-1
        bgeu    a3,a4,_core.ops.range.Range_Idx__as_core.fmt.Debug_.fmt.15
_core.ops.range.Range_Idx__as_core.fmt.Debug_.fmt.14:
        mv      a4,a6
        andi    a5,a6,15
        li      a7,48
        bltu    a5,a2,_core.ops.range.Range_Idx__as_core.fmt.Debug_.fmt.13
        li      a7,55
        j       _core.ops.range.Range_Idx__as_core.fmt.Debug_.fmt.13
_core.ops.range.Range_Idx__as_core.fmt.Debug_.fmt.15:
        addi    a0,a1,128
        li      a2,129
        bgeu    a0,a2,_core.ops.range.Range_Idx__as_core.fmt.Debug_.fmt.19
        neg     a5,a1
        mv      a0,sp
        add     a0,a0,a1
        addi    a4,a0,128
        lui     a0,%hi(anon.d8baefb1ceef499e2c940a0845b5f94b.4.llvm.9151028078758918862)
        addi    a2,a0,%lo(anon.d8baefb1ceef499e2c940a0845b5f94b.4.llvm.9151028078758918862)
        li      a1,1
        li      a3,2
        mv      a0,s0
        call    core.fmt.Formatter.pad_integral
_core.ops.range.Range_Idx__as_core.fmt.Debug_.fmt.16:
        mv      a1,a0
        li      a0,0
        beqz    a1,_core.ops.range.Range_Idx__as_core.fmt.Debug_.fmt.18
_core.ops.range.Range_Idx__as_core.fmt.Debug_.fmt.17:
        li      a0,1
_core.ops.range.Range_Idx__as_core.fmt.Debug_.fmt.18:
        lw      ra,140(sp)
        lw      s0,136(sp)
        lw      s1,132(sp)
        addi    sp,sp,144
        ret
_core.ops.range.Range_Idx__as_core.fmt.Debug_.fmt.19:
        li      a1,128
        call    core.slice.index.slice_start_index_len_fail
        .word   0xc0001073              # unimp

core.slice.index.slice_start_index_len_fail:
        call    core.intrinsics.const_eval_select
        .word   0xc0001073              # unimp

core.slice.index.slice_start_index_len_fail_rt:
        addi    sp,sp,-48
        sw      a0,0(sp)
        sw      a1,4(sp)
        mv      a0,sp
        sw      a0,32(sp)
        lui     a0,%hi(core.fmt.num.imp._impl_core.fmt.Display_for_usize_.fmt)
        addi    a0,a0,%lo(core.fmt.num.imp._impl_core.fmt.Display_for_usize_.fmt)
        sw      a0,36(sp)
        addi    a1,sp,4
        sw      a1,40(sp)
        sw      a0,44(sp)
        lui     a0,%hi(rodata.98c)
        addi    a0,a0,%lo(rodata.98c)
        sw      a0,8(sp)
        li      a0,2
        sw      a0,12(sp)
        sw      zero,16(sp)
        addi    a1,sp,32
        sw      a1,24(sp)
        sw      a0,28(sp)
        lui     a0,%hi(rodata.9d4)
        addi    a1,a0,%lo(rodata.9d4)
        addi    a0,sp,8
        call    core.panicking.panic_fmt
        .word   0xc0001073              # unimp

core.slice.index.slice_end_index_len_fail:
        call    core.intrinsics.const_eval_select.2
        .word   0xc0001073              # unimp

core.slice.index.slice_end_index_len_fail_rt:
        addi    sp,sp,-48
        sw      a0,0(sp)
        sw      a1,4(sp)
        mv      a0,sp
        sw      a0,32(sp)
        lui     a0,%hi(core.fmt.num.imp._impl_core.fmt.Display_for_usize_.fmt)
        addi    a0,a0,%lo(core.fmt.num.imp._impl_core.fmt.Display_for_usize_.fmt)
        sw      a0,36(sp)
        addi    a1,sp,4
        sw      a1,40(sp)
        sw      a0,44(sp)
        lui     a0,%hi(rodata.9f4)
        addi    a0,a0,%lo(rodata.9f4)
        sw      a0,8(sp)
        li      a0,2
        sw      a0,12(sp)
        sw      zero,16(sp)
        addi    a1,sp,32
        sw      a1,24(sp)
        sw      a0,28(sp)
        lui     a0,%hi(rodata.a04)
        addi    a1,a0,%lo(rodata.a04)
        addi    a0,sp,8
        call    core.panicking.panic_fmt
        .word   0xc0001073              # unimp

core.slice.index.slice_index_order_fail:
        call    core.intrinsics.const_eval_select.3
        .word   0xc0001073              # unimp

core.slice.index.slice_index_order_fail_rt:
        addi    sp,sp,-48
        sw      a0,0(sp)
        sw      a1,4(sp)
        mv      a0,sp
        sw      a0,32(sp)
        lui     a0,%hi(core.fmt.num.imp._impl_core.fmt.Display_for_usize_.fmt)
        addi    a0,a0,%lo(core.fmt.num.imp._impl_core.fmt.Display_for_usize_.fmt)
        sw      a0,36(sp)
        addi    a1,sp,4
        sw      a1,40(sp)
        sw      a0,44(sp)
        lui     a0,%hi(rodata.a38)
        addi    a0,a0,%lo(rodata.a38)
        sw      a0,8(sp)
        li      a0,2
        sw      a0,12(sp)
        sw      zero,16(sp)
        addi    a1,sp,32
        sw      a1,24(sp)
        sw      a0,28(sp)
        lui     a0,%hi(rodata.a48)
        addi    a1,a0,%lo(rodata.a48)
        addi    a0,sp,8
        call    core.panicking.panic_fmt
        .word   0xc0001073              # unimp

core.ops.function.FnOnce.call_once.5:
        call    core.str.slice_error_fail_rt
        .word   0xc0001073              # unimp

core.intrinsics.const_eval_select.4:
        lw      a4,0(a0)
        lw      a1,4(a0)
        lw      a2,8(a0)
        lw      a3,12(a0)
        mv      a0,a4
        call    core.ops.function.FnOnce.call_once.5
        .word   0xc0001073              # unimp

core.str.slice_error_fail:
        addi    sp,sp,-16
        sw      a0,0(sp)
        sw      a1,4(sp)
        sw      a2,8(sp)
        sw      a3,12(sp)
        mv      a0,sp
        call    core.intrinsics.const_eval_select.4
        .word   0xc0001073              # unimp

core.str.slice_error_fail_rt:
        addi    sp,sp,-112
        sw      a2,8(sp)
        li      a4,257
        sw      a3,12(sp)
        bltu    a1,a4,core.str.slice_error_fail_rt.2
        lb      a6,256(a0)
        li      a5,-65
        li      a4,256
        blt     a5,a6,core.str.slice_error_fail_rt.1
        lb      a6,255(a0)
        li      a4,255
        blt     a5,a6,core.str.slice_error_fail_rt.1
        lb      a5,254(a0)
        li      a6,-65
        li      a4,254
        blt     a6,a5,core.str.slice_error_fail_rt.1
        li      a4,253
core.str.slice_error_fail_rt.1:
        sw      a0,16(sp)
        sw      a4,20(sp)
        lui     a4,%hi(rodata.af5)
        addi    a4,a4,%lo(rodata.af5)
        sw      a4,24(sp)
        li      a4,5
        j       core.str.slice_error_fail_rt.3
core.str.slice_error_fail_rt.2:
        li      a4,0
        sw      a0,16(sp)
        sw      a1,20(sp)
        lui     a5,%hi(rodata.ac4)
        addi    a5,a5,%lo(rodata.ac4)
        sw      a5,24(sp)
core.str.slice_error_fail_rt.3:
        sltu    a5,a1,a2
        sltu    a6,a1,a3
        or      a5,a5,a6
        sw      a4,28(sp)
        beqz    a5,core.str.slice_error_fail_rt.5
        bltu    a1,a2,core.str.slice_error_fail_rt.4
        mv      a2,a3
core.str.slice_error_fail_rt.4:
        sw      a2,40(sp)
        addi    a0,sp,40
        sw      a0,72(sp)
        lui     a0,%hi(core.fmt.num.imp._impl_core.fmt.Display_for_usize_.fmt)
        addi    a0,a0,%lo(core.fmt.num.imp._impl_core.fmt.Display_for_usize_.fmt)
        sw      a0,76(sp)
        addi    a0,sp,16
        sw      a0,80(sp)
        lui     a0,%hi(__T_as_core.fmt.Display_.fmt.3)
        addi    a0,a0,%lo(__T_as_core.fmt.Display_.fmt.3)
        sw      a0,84(sp)
        addi    a1,sp,24
        sw      a1,88(sp)
        sw      a0,92(sp)
        lui     a0,%hi(rodata.b1c)
        addi    a0,a0,%lo(rodata.b1c)
        sw      a0,48(sp)
        li      a0,3
        sw      a0,52(sp)
        sw      zero,56(sp)
        addi    a1,sp,72
        sw      a1,64(sp)
        sw      a0,68(sp)
        lui     a0,%hi(rodata.b34)
        addi    a1,a0,%lo(rodata.b34)
        j       core.str.slice_error_fail_rt.26
core.str.slice_error_fail_rt.5:
        bgeu    a3,a2,core.str.slice_error_fail_rt.6
        addi    a0,sp,8
        sw      a0,72(sp)
        lui     a0,%hi(core.fmt.num.imp._impl_core.fmt.Display_for_usize_.fmt)
        addi    a0,a0,%lo(core.fmt.num.imp._impl_core.fmt.Display_for_usize_.fmt)
        sw      a0,76(sp)
        addi    a1,sp,12
        sw      a1,80(sp)
        sw      a0,84(sp)
        addi    a0,sp,16
        sw      a0,88(sp)
        lui     a0,%hi(__T_as_core.fmt.Display_.fmt.3)
        addi    a0,a0,%lo(__T_as_core.fmt.Display_.fmt.3)
        sw      a0,92(sp)
        addi    a1,sp,24
        sw      a1,96(sp)
        sw      a0,100(sp)
        lui     a0,%hi(rodata.b54)
        addi    a0,a0,%lo(rodata.b54)
        sw      a0,48(sp)
        li      a0,4
        sw      a0,52(sp)
        sw      zero,56(sp)
        addi    a1,sp,72
        sw      a1,64(sp)
        sw      a0,68(sp)
        lui     a0,%hi(rodata.b74)
        addi    a1,a0,%lo(rodata.b74)
        j       core.str.slice_error_fail_rt.26
core.str.slice_error_fail_rt.6:
        bnez    a2,core.str.slice_error_fail_rt.10
core.str.slice_error_fail_rt.7:
        mv      a2,a3
core.str.slice_error_fail_rt.8:
        sw      a2,32(sp)
        mv      a3,a1
        bgeu    a2,a1,core.str.slice_error_fail_rt.14
        addi    a4,a2,-3
        li      a3,0
        bltu    a2,a4,core.str.slice_error_fail_rt.9
        mv      a3,a4
core.str.slice_error_fail_rt.9:
        addi    a4,a2,1
        bgeu    a4,a3,core.str.slice_error_fail_rt.11
        lui     a0,%hi(rodata.c10)
        addi    a2,a0,%lo(rodata.c10)
        mv      a0,a3
        mv      a1,a4
        call    core.slice.index.slice_index_order_fail
        .word   0xc0001073              # unimp
core.str.slice_error_fail_rt.10:
        bgeu    a2,a1,core.str.slice_error_fail_rt.16
        add     a4,a0,a2
        lb      a4,0(a4)
        li      a5,-64
        bge     a4,a5,core.str.slice_error_fail_rt.7
        j       core.str.slice_error_fail_rt.8
core.str.slice_error_fail_rt.11:
        add     a5,a0,a3
        add     a4,a0,a4
        sub     a4,a4,a5
        add     a2,a0,a2
        li      a5,-64
core.str.slice_error_fail_rt.12:
        beqz    a4,core.str.slice_error_fail_rt.13
        lb      a6,0(a2)
        addi    a4,a4,-1
        addi    a2,a2,-1
        blt     a6,a5,core.str.slice_error_fail_rt.12
core.str.slice_error_fail_rt.13:
        add     a3,a4,a3
core.str.slice_error_fail_rt.14:
        beqz    a3,core.str.slice_error_fail_rt.18
        bgeu    a3,a1,core.str.slice_error_fail_rt.17
        add     a2,a0,a3
        lb      a2,0(a2)
        li      a4,-65
        blt     a4,a2,core.str.slice_error_fail_rt.18
core.str.slice_error_fail_rt.15:
        mv      a2,a3
        mv      a3,a1
        call    core.str.slice_error_fail
        .word   0xc0001073              # unimp
core.str.slice_error_fail_rt.16:
        beq     a1,a2,core.str.slice_error_fail_rt.7
        j       core.str.slice_error_fail_rt.8
core.str.slice_error_fail_rt.17:
        bne     a3,a1,core.str.slice_error_fail_rt.15
core.str.slice_error_fail_rt.18:
        bne     a3,a1,core.str.slice_error_fail_rt.20
core.str.slice_error_fail_rt.19:
        lui     a0,%hi(text.called_Option_unwrap.2)
        addi    a0,a0,%lo(text.called_Option_unwrap.2)
        lui     a1,%hi(rodata.b84)
        addi    a2,a1,%lo(rodata.b84)
        li      a1,43
        call    core.panicking.panic
        .word   0xc0001073              # unimp
core.str.slice_error_fail_rt.20:
        add     a0,a0,a3
        lb      a2,0(a0)
        andi    a1,a2,255
        bltz    a2,core.str.slice_error_fail_rt.21
        sw      a1,36(sp)
        li      a1,1
        j       core.str.slice_error_fail_rt.25
core.str.slice_error_fail_rt.21:
        lbu     a4,1(a0)
        andi    a2,a1,31
        li      a5,223
        andi    a4,a4,63
        bgeu    a5,a1,core.str.slice_error_fail_rt.22
        lbu     a5,2(a0)
        slli    a4,a4,6
        andi    a5,a5,63
        li      a6,240
        or      a4,a4,a5
        bltu    a1,a6,core.str.slice_error_fail_rt.23
        lbu     a0,3(a0)
        slli    a1,a2,29
        srli    a1,a1,11
        slli    a2,a4,6
        andi    a0,a0,63
        or      a0,a2,a0
        or      a0,a0,a1
        li      a1,0x110000
        beq     a0,a1,core.str.slice_error_fail_rt.19
        j       core.str.slice_error_fail_rt.24
core.str.slice_error_fail_rt.22:
        slli    a0,a2,6
        or      a0,a0,a4
        j       core.str.slice_error_fail_rt.24
core.str.slice_error_fail_rt.23:
        slli    a0,a2,12
        or      a0,a4,a0
core.str.slice_error_fail_rt.24:
        sw      a0,36(sp)
        li      a2,128
        li      a1,1
        bltu    a0,a2,core.str.slice_error_fail_rt.25
        srli    a2,a0,11
        li      a1,2
        beqz    a2,core.str.slice_error_fail_rt.25
        srli    a0,a0,16
        seqz    a0,a0
        li      a1,4
        sub     a1,a1,a0
core.str.slice_error_fail_rt.25:
        add     a0,a1,a3
        sw      a3,40(sp)
        sw      a0,44(sp)
        addi    a0,sp,32
        sw      a0,72(sp)
        lui     a0,%hi(core.fmt.num.imp._impl_core.fmt.Display_for_usize_.fmt)
        addi    a0,a0,%lo(core.fmt.num.imp._impl_core.fmt.Display_for_usize_.fmt)
        sw      a0,76(sp)
        addi    a0,sp,36
        sw      a0,80(sp)
        lui     a0,%hi(_char_as_core.fmt.Debug_.fmt)
        addi    a0,a0,%lo(_char_as_core.fmt.Debug_.fmt)
        sw      a0,84(sp)
        addi    a0,sp,40
        sw      a0,88(sp)
        lui     a0,%hi(_core.ops.range.Range_Idx__as_core.fmt.Debug_.fmt)
        addi    a0,a0,%lo(_core.ops.range.Range_Idx__as_core.fmt.Debug_.fmt)
        sw      a0,92(sp)
        addi    a0,sp,16
        sw      a0,96(sp)
        lui     a0,%hi(__T_as_core.fmt.Display_.fmt.3)
        addi    a0,a0,%lo(__T_as_core.fmt.Display_.fmt.3)
        sw      a0,100(sp)
        addi    a1,sp,24
        sw      a1,104(sp)
        sw      a0,108(sp)
        lui     a0,%hi(rodata.bd8)
        addi    a0,a0,%lo(rodata.bd8)
        sw      a0,48(sp)
        li      a0,5
        sw      a0,52(sp)
        sw      zero,56(sp)
        addi    a1,sp,72
        sw      a1,64(sp)
        sw      a0,68(sp)
        lui     a0,%hi(rodata.c00)
        addi    a1,a0,%lo(rodata.c00)
core.str.slice_error_fail_rt.26:
        addi    a0,sp,48
        call    core.panicking.panic_fmt
        .word   0xc0001073              # unimp

core.unicode.unicode_data.grapheme_extend.lookup:
        li      a4,0
        slli    a1,a0,11
        li      a5,32
        lui     a2,%hi(core.unicode.unicode_data.grapheme_extend.SHORT_OFFSET_RUNS)
        addi    a2,a2,%lo(core.unicode.unicode_data.grapheme_extend.SHORT_OFFSET_RUNS)
        li      a3,32
        j       core.unicode.unicode_data.grapheme_extend.lookup.3
core.unicode.unicode_data.grapheme_extend.lookup.1:
        addi    a4,a5,1
core.unicode.unicode_data.grapheme_extend.lookup.2:
        sub     a5,a3,a4
        bgeu    a4,a3,core.unicode.unicode_data.grapheme_extend.lookup.5
core.unicode.unicode_data.grapheme_extend.lookup.3:
        srli    a5,a5,1
        add     a5,a5,a4
        slli    a6,a5,2
        add     a6,a6,a2
        lw      a6,0(a6)
        slli    a6,a6,11
        bltu    a6,a1,core.unicode.unicode_data.grapheme_extend.lookup.1
        beq     a6,a1,core.unicode.unicode_data.grapheme_extend.lookup.4
        mv      a3,a5
        j       core.unicode.unicode_data.grapheme_extend.lookup.2
core.unicode.unicode_data.grapheme_extend.lookup.4:
        addi    a4,a5,1
core.unicode.unicode_data.grapheme_extend.lookup.5:
        li      a3,31
        bltu    a3,a4,core.unicode.unicode_data.grapheme_extend.lookup.14
        lui     a1,%hi(core.unicode.unicode_data.grapheme_extend.SHORT_OFFSET_RUNS)
        addi    a2,a1,%lo(core.unicode.unicode_data.grapheme_extend.SHORT_OFFSET_RUNS)
        slli    a5,a4,2
        li      a1,707
        beq     a4,a3,core.unicode.unicode_data.grapheme_extend.lookup.6
        add     a1,a2,a5
        lw      a1,4(a1)
        srli    a1,a1,21
core.unicode.unicode_data.grapheme_extend.lookup.6:
        addi    a3,a4,-1
        bgeu    a4,a3,core.unicode.unicode_data.grapheme_extend.lookup.7
        li      a4,0
        j       core.unicode.unicode_data.grapheme_extend.lookup.8
core.unicode.unicode_data.grapheme_extend.lookup.7:
        li      a4,32
        bgeu    a3,a4,core.unicode.unicode_data.grapheme_extend.lookup.15
        lui     a4,%hi(core.unicode.unicode_data.grapheme_extend.SHORT_OFFSET_RUNS)
        addi    a4,a4,%lo(core.unicode.unicode_data.grapheme_extend.SHORT_OFFSET_RUNS)
        slli    a3,a3,2
        add     a3,a3,a4
        lw      a3,0(a3)
        slli    a3,a3,11
        srli    a4,a3,11
core.unicode.unicode_data.grapheme_extend.lookup.8:
        add     a2,a5,a2
        lw      a2,0(a2)
        srli    a2,a2,21
        not     a3,a2
        add     a3,a1,a3
        beqz    a3,core.unicode.unicode_data.grapheme_extend.lookup.11
        li      a5,707
        mv      a3,a2
        bltu    a5,a2,core.unicode.unicode_data.grapheme_extend.lookup.9
        li      a3,707
core.unicode.unicode_data.grapheme_extend.lookup.9:
        li      a5,0
        sub     a4,a0,a4
        addi    a0,a1,-1
        lui     a1,%hi(core.unicode.unicode_data.grapheme_extend.OFFSETS)
        addi    a1,a1,%lo(core.unicode.unicode_data.grapheme_extend.OFFSETS)
core.unicode.unicode_data.grapheme_extend.lookup.10:
        beq     a3,a2,core.unicode.unicode_data.grapheme_extend.lookup.12
        add     a6,a2,a1
        lbu     a6,0(a6)
        add     a5,a5,a6
        bltu    a4,a5,core.unicode.unicode_data.grapheme_extend.lookup.11
        addi    a2,a2,1
        bne     a0,a2,core.unicode.unicode_data.grapheme_extend.lookup.10
        mv      a2,a0
core.unicode.unicode_data.grapheme_extend.lookup.11:
        andi    a0,a2,1
        ret
core.unicode.unicode_data.grapheme_extend.lookup.12:
        lui     a0,%hi(anon.9a84fdda245b6bb1ae829b78c34ea9d1.59.llvm.1676802691956877317)
        addi    a2,a0,%lo(anon.9a84fdda245b6bb1ae829b78c34ea9d1.59.llvm.1676802691956877317)
        li      a1,707
core.unicode.unicode_data.grapheme_extend.lookup.13:
        mv      a0,a3
        call    core.panicking.panic_bounds_check
        .word   0xc0001073              # unimp
core.unicode.unicode_data.grapheme_extend.lookup.14:
        lui     a0,%hi(anon.9a84fdda245b6bb1ae829b78c34ea9d1.58.llvm.1676802691956877317)
        addi    a2,a0,%lo(anon.9a84fdda245b6bb1ae829b78c34ea9d1.58.llvm.1676802691956877317)
        li      a1,32
        mv      a0,a4
        call    core.panicking.panic_bounds_check
        .word   0xc0001073              # unimp
core.unicode.unicode_data.grapheme_extend.lookup.15:
        lui     a0,%hi(anon.9a84fdda245b6bb1ae829b78c34ea9d1.60.llvm.1676802691956877317)
        addi    a2,a0,%lo(anon.9a84fdda245b6bb1ae829b78c34ea9d1.60.llvm.1676802691956877317)
        li      a1,32
        j       core.unicode.unicode_data.grapheme_extend.lookup.13

core.ptr.drop_in_place_char_:
core.ptr.drop_in_place__u8_:
core.ptr.drop_in_place__char_:
        ret

_core.fmt.builders.PadAdapter_as_core.fmt.Write_.write_str:
        addi    sp,sp,-64
        sw      ra,60(sp)
        sw      s0,56(sp)
        sw      s1,52(sp)
        sw      s2,48(sp)
        sw      s3,44(sp)
        sw      s4,40(sp)
        sw      s5,36(sp)
        sw      s6,32(sp)
        sw      s7,28(sp)
        sw      s8,24(sp)
        sw      s9,20(sp)
        sw      s10,16(sp)
        sw      s11,12(sp)
        beqz    a2,_core.fmt.builders.PadAdapter_as_core.fmt.Write_.write_str.17
        mv      s0,a2
        mv      s1,a1
        lw      s5,8(a0)
        lw      s2,0(a0)
        lw      s6,4(a0)
        li      s7,8
        li      s8,10
        li      s9,1
        li      s10,-65
        lui     a0,%hi(text.datawakedrop_usr_src)
        addi    s3,a0,%lo(text.datawakedrop_usr_src)
        j       _core.fmt.builders.PadAdapter_as_core.fmt.Write_.write_str.3
_core.fmt.builders.PadAdapter_as_core.fmt.Write_.write_str.1:
        lw      a3,12(s6)
        mv      a0,s2
        mv      a1,s1
        li      a2,0
        jalr    a3
        li      s4,0
        bnez    a0,_core.fmt.builders.PadAdapter_as_core.fmt.Write_.write_str.16
_core.fmt.builders.PadAdapter_as_core.fmt.Write_.write_str.2:
        sub     s0,s0,s4
        add     s1,s1,s4
        beqz    s0,_core.fmt.builders.PadAdapter_as_core.fmt.Write_.write_str.17
_core.fmt.builders.PadAdapter_as_core.fmt.Write_.write_str.3:
        lbu     a0,0(s5)
        beqz    a0,_core.fmt.builders.PadAdapter_as_core.fmt.Write_.write_str.4
        lw      a3,12(s6)
        li      a2,4
        mv      a0,s2
        mv      a1,s3
        jalr    a3
        bnez    a0,_core.fmt.builders.PadAdapter_as_core.fmt.Write_.write_str.16
_core.fmt.builders.PadAdapter_as_core.fmt.Write_.write_str.4:
        li      s4,0
        mv      a2,s0
        add     a3,s1,s4
        bltu    a2,s7,_core.fmt.builders.PadAdapter_as_core.fmt.Write_.write_str.6
_core.fmt.builders.PadAdapter_as_core.fmt.Write_.write_str.5:
        li      a0,10
        mv      a1,a3
        call    core.slice.memchr.memchr_general_case
        beq     a0,s9,_core.fmt.builders.PadAdapter_as_core.fmt.Write_.write_str.10
        j       _core.fmt.builders.PadAdapter_as_core.fmt.Write_.write_str.12
_core.fmt.builders.PadAdapter_as_core.fmt.Write_.write_str.6:
        li      a1,0
        beqz    a2,_core.fmt.builders.PadAdapter_as_core.fmt.Write_.write_str.8
_core.fmt.builders.PadAdapter_as_core.fmt.Write_.write_str.7:
        add     a0,a3,a1
        lbu     a0,0(a0)
        beq     a0,s8,_core.fmt.builders.PadAdapter_as_core.fmt.Write_.write_str.9
        addi    a1,a1,1
        bne     a2,a1,_core.fmt.builders.PadAdapter_as_core.fmt.Write_.write_str.7
        li      a0,0
        mv      a1,a2
        beq     a0,s9,_core.fmt.builders.PadAdapter_as_core.fmt.Write_.write_str.10
        j       _core.fmt.builders.PadAdapter_as_core.fmt.Write_.write_str.12
_core.fmt.builders.PadAdapter_as_core.fmt.Write_.write_str.8:
        li      a0,0
        beq     a0,s9,_core.fmt.builders.PadAdapter_as_core.fmt.Write_.write_str.10
        j       _core.fmt.builders.PadAdapter_as_core.fmt.Write_.write_str.12
_core.fmt.builders.PadAdapter_as_core.fmt.Write_.write_str.9:
        li      a0,1
        bne     a0,s9,_core.fmt.builders.PadAdapter_as_core.fmt.Write_.write_str.12
_core.fmt.builders.PadAdapter_as_core.fmt.Write_.write_str.10:
        add     a0,s4,a1
        addi    s4,a0,1
        sltu    a1,s4,a0
        sltu    a2,s0,s4
        or      a1,a1,a2
        bnez    a1,_core.fmt.builders.PadAdapter_as_core.fmt.Write_.write_str.11
        add     a0,s1,a0
        lbu     a0,0(a0)
        beq     a0,s8,_core.fmt.builders.PadAdapter_as_core.fmt.Write_.write_str.14
_core.fmt.builders.PadAdapter_as_core.fmt.Write_.write_str.11:
        bltu    s0,s4,_core.fmt.builders.PadAdapter_as_core.fmt.Write_.write_str.12
        sub     a2,s0,s4
        add     a3,s1,s4
        bltu    a2,s7,_core.fmt.builders.PadAdapter_as_core.fmt.Write_.write_str.6
        j       _core.fmt.builders.PadAdapter_as_core.fmt.Write_.write_str.5
_core.fmt.builders.PadAdapter_as_core.fmt.Write_.write_str.12:
        sb      zero,0(s5)
        mv      s4,s0
        beqz    s0,_core.fmt.builders.PadAdapter_as_core.fmt.Write_.write_str.1
        bgeu    s4,s0,_core.fmt.builders.PadAdapter_as_core.fmt.Write_.write_str.15
_core.fmt.builders.PadAdapter_as_core.fmt.Write_.write_str.13:
        add     s11,s1,s4
        lb      a0,0(s11)
        bge     s10,a0,_core.fmt.builders.PadAdapter_as_core.fmt.Write_.write_str.19
        lw      a3,12(s6)
        mv      a0,s2
        mv      a1,s1
        mv      a2,s4
        jalr    a3
        bnez    a0,_core.fmt.builders.PadAdapter_as_core.fmt.Write_.write_str.16
        lb      a0,0(s11)
        blt     s10,a0,_core.fmt.builders.PadAdapter_as_core.fmt.Write_.write_str.2
        j       _core.fmt.builders.PadAdapter_as_core.fmt.Write_.write_str.20
_core.fmt.builders.PadAdapter_as_core.fmt.Write_.write_str.14:
        sb      s9,0(s5)
        bltu    s4,s0,_core.fmt.builders.PadAdapter_as_core.fmt.Write_.write_str.13
_core.fmt.builders.PadAdapter_as_core.fmt.Write_.write_str.15:
        bne     s0,s4,_core.fmt.builders.PadAdapter_as_core.fmt.Write_.write_str.19
        lw      a3,12(s6)
        mv      a0,s2
        mv      a1,s1
        mv      a2,s0
        jalr    a3
        mv      s4,s0
        beqz    a0,_core.fmt.builders.PadAdapter_as_core.fmt.Write_.write_str.2
_core.fmt.builders.PadAdapter_as_core.fmt.Write_.write_str.16:
        li      a0,1
        j       _core.fmt.builders.PadAdapter_as_core.fmt.Write_.write_str.18
_core.fmt.builders.PadAdapter_as_core.fmt.Write_.write_str.17:
        li      a0,0
_core.fmt.builders.PadAdapter_as_core.fmt.Write_.write_str.18:
        lw      ra,60(sp)
        lw      s0,56(sp)
        lw      s1,52(sp)
        lw      s2,48(sp)
        lw      s3,44(sp)
        lw      s4,40(sp)
        lw      s5,36(sp)
        lw      s6,32(sp)
        lw      s7,28(sp)
        lw      s8,24(sp)
        lw      s9,20(sp)
        lw      s10,16(sp)
        lw      s11,12(sp)
        addi    sp,sp,64
        ret
_core.fmt.builders.PadAdapter_as_core.fmt.Write_.write_str.19:
        lui     a0,%hi(rodata.101c)
        addi    a4,a0,%lo(rodata.101c)
        mv      a0,s1
        mv      a1,s0
        li      a2,0
        mv      a3,s4
        call    core.str.slice_error_fail
        .word   0xc0001073              # unimp
_core.fmt.builders.PadAdapter_as_core.fmt.Write_.write_str.20:
        lui     a0,%hi(rodata.102c)
        addi    a4,a0,%lo(rodata.102c)
        mv      a0,s1
        mv      a1,s0
        mv      a2,s4
        mv      a3,s0
        call    core.str.slice_error_fail
        .word   0xc0001073              # unimp

core.fmt.builders.DebugInner.entry:
        addi    sp,sp,-80
        sw      ra,76(sp)
        sw      s0,72(sp)
        sw      s1,68(sp)
        sw      s2,64(sp)
        sw      s3,60(sp)
        sw      s4,56(sp)
        sw      s5,52(sp)
        mv      s0,a0
        lbu     a0,4(a0)
        li      s5,1
        li      s4,1
        beqz    a0,core.fmt.builders.DebugInner.entry.2
core.fmt.builders.DebugInner.entry.1:
        sb      s4,4(s0)
        sb      s5,5(s0)
        lw      ra,76(sp)
        lw      s0,72(sp)
        lw      s1,68(sp)
        lw      s2,64(sp)
        lw      s3,60(sp)
        lw      s4,56(sp)
        lw      s5,52(sp)
        addi    sp,sp,80
        ret
core.fmt.builders.DebugInner.entry.2:
        mv      s2,a2
        mv      s1,a1
        lw      s3,0(s0)
        lbu     a1,0(s3)
        lbu     a0,5(s0)
        andi    a1,a1,4
        bnez    a1,core.fmt.builders.DebugInner.entry.4
        beqz    a0,core.fmt.builders.DebugInner.entry.3
        lw      a1,28(s3)
        lw      a0,24(s3)
        lw      a3,12(a1)
        lui     a1,%hi(anon.d66a73ded65ac612f4034618de25475a.32.llvm.14375515377028938436)
        addi    a1,a1,%lo(anon.d66a73ded65ac612f4034618de25475a.32.llvm.14375515377028938436)
        li      a2,2
        jalr    a3
        li      s4,1
        bnez    a0,core.fmt.builders.DebugInner.entry.1
core.fmt.builders.DebugInner.entry.3:
        lw      a2,12(s2)
        mv      a0,s1
        mv      a1,s3
        jalr    a2
        mv      s4,a0
        j       core.fmt.builders.DebugInner.entry.1
core.fmt.builders.DebugInner.entry.4:
        bnez    a0,core.fmt.builders.DebugInner.entry.5
        lw      a1,28(s3)
        lw      a0,24(s3)
        lw      a3,12(a1)
        lui     a1,%hi(anon.d66a73ded65ac612f4034618de25475a.43.llvm.14375515377028938436)
        addi    a1,a1,%lo(anon.d66a73ded65ac612f4034618de25475a.43.llvm.14375515377028938436)
        li      a2,1
        li      s4,1
        jalr    a3
        bnez    a0,core.fmt.builders.DebugInner.entry.1
core.fmt.builders.DebugInner.entry.5:
        li      s4,1
        sb      s4,15(sp)
        lw      a0,24(s3)
        lw      a1,28(s3)
        sw      a0,0(sp)
        sw      a1,4(sp)
        addi    a0,sp,15
        sw      a0,8(sp)
        lw      a0,0(s3)
        lw      a1,4(s3)
        lb      a2,32(s3)
        lw      a3,8(s3)
        lw      a4,12(s3)
        lw      a5,16(s3)
        lw      a6,20(s3)
        sw      a0,16(sp)
        sw      a1,20(sp)
        sb      a2,48(sp)
        sw      a3,24(sp)
        sw      a4,28(sp)
        sw      a5,32(sp)
        sw      a6,36(sp)
        mv      a0,sp
        sw      a0,40(sp)
        lw      a2,12(s2)
        lui     a0,%hi(anon.fba9fc9ea3f826b8676d1b9577995e40.2.llvm.10883324732055980791)
        addi    a0,a0,%lo(anon.fba9fc9ea3f826b8676d1b9577995e40.2.llvm.10883324732055980791)
        sw      a0,44(sp)
        addi    a1,sp,16
        mv      a0,s1
        jalr    a2
        bnez    a0,core.fmt.builders.DebugInner.entry.1
        lw      a1,44(sp)
        lw      a0,40(sp)
        lw      a3,12(a1)
        lui     a1,%hi(anon.d66a73ded65ac612f4034618de25475a.31.llvm.14375515377028938436)
        addi    a1,a1,%lo(anon.d66a73ded65ac612f4034618de25475a.31.llvm.14375515377028938436)
        li      a2,2
        jalr    a3
        mv      s4,a0
        j       core.fmt.builders.DebugInner.entry.1

core.fmt.builders.DebugList.entry:
core.fmt.builders.DebugSet.entry:
        addi    sp,sp,-16
        sw      ra,12(sp)
        sw      s0,8(sp)
        mv      s0,a0
        call    core.fmt.builders.DebugInner.entry
        mv      a0,s0
        lw      ra,12(sp)
        lw      s0,8(sp)
        addi    sp,sp,16
        ret

core.fmt.builders.DebugList.finish:
        lbu     a1,4(a0)
        beqz    a1,core.fmt.builders.DebugList.finish.1
        li      a0,1
        ret
core.fmt.builders.DebugList.finish.1:
        lw      a0,0(a0)
        lw      a1,28(a0)
        lw      a0,24(a0)
        lw      t1,12(a1)
        lui     a1,%hi(anon.d66a73ded65ac612f4034618de25475a.49.llvm.14375515377028938436)
        addi    a1,a1,%lo(anon.d66a73ded65ac612f4034618de25475a.49.llvm.14375515377028938436)
        li      a2,1
        jr      t1

core.fmt.Write.write_char:
        addi    sp,sp,-16
        sw      ra,12(sp)
        li      a2,128
        sw      zero,8(sp)
        bgeu    a1,a2,core.fmt.Write.write_char.1
        sb      a1,8(sp)
        li      a2,1
        j       core.fmt.Write.write_char.4
core.fmt.Write.write_char.1:
        srli    a2,a1,11
        bnez    a2,core.fmt.Write.write_char.2
        srli    a2,a1,6
        ori     a2,a2,192
        sb      a2,8(sp)
        andi    a1,a1,63
        ori     a1,a1,128
        sb      a1,9(sp)
        li      a2,2
        j       core.fmt.Write.write_char.4
core.fmt.Write.write_char.2:
        srli    a2,a1,16
        bnez    a2,core.fmt.Write.write_char.3
        srli    a2,a1,12
        ori     a2,a2,224
        sb      a2,8(sp)
        srli    a2,a1,6
        andi    a2,a2,63
        ori     a2,a2,128
        sb      a2,9(sp)
        andi    a1,a1,63
        ori     a1,a1,128
        sb      a1,10(sp)
        li      a2,3
        j       core.fmt.Write.write_char.4
core.fmt.Write.write_char.3:
        srli    a2,a1,18
        ori     a2,a2,240
        sb      a2,8(sp)
        srli    a2,a1,12
        andi    a2,a2,63
        ori     a2,a2,128
        sb      a2,9(sp)
        srli    a2,a1,6
        andi    a2,a2,63
        ori     a2,a2,128
        sb      a2,10(sp)
        andi    a1,a1,63
        ori     a1,a1,128
        sb      a1,11(sp)
        li      a2,4
core.fmt.Write.write_char.4:
        addi    a1,sp,8
        call    _core.fmt.builders.PadAdapter_as_core.fmt.Write_.write_str
        lw      ra,12(sp)
        addi    sp,sp,16
        ret

core.fmt.Write.write_fmt:
        addi    sp,sp,-48
        sw      ra,44(sp)
        lw      a2,20(a1)
        lw      a3,16(a1)
        sw      a0,12(sp)
        sw      a2,36(sp)
        sw      a3,32(sp)
        lw      a0,12(a1)
        lw      a2,8(a1)
        lw      a3,4(a1)
        lw      a1,0(a1)
        sw      a0,28(sp)
        sw      a2,24(sp)
        sw      a3,20(sp)
        sw      a1,16(sp)
        lui     a0,%hi(rodata.1044)
        addi    a1,a0,%lo(rodata.1044)
        addi    a0,sp,12
        addi    a2,sp,16
        call    core.fmt.write
        lw      ra,44(sp)
        addi    sp,sp,48
        ret

__mut_W_as_core.fmt.Write_.write_str.2:
        lw      a0,0(a0)
        tail    _core.fmt.builders.PadAdapter_as_core.fmt.Write_.write_str

__mut_W_as_core.fmt.Write_.write_char.2:
        addi    sp,sp,-16
        sw      ra,12(sp)
        lw      a0,0(a0)
        li      a2,128
        sw      zero,8(sp)
        bgeu    a1,a2,__mut_W_as_core.fmt.Write_.write_char.2.1
        sb      a1,8(sp)
        li      a2,1
        j       __mut_W_as_core.fmt.Write_.write_char.2.4
__mut_W_as_core.fmt.Write_.write_char.2.1:
        srli    a2,a1,11
        bnez    a2,__mut_W_as_core.fmt.Write_.write_char.2.2.2
        srli    a2,a1,6
        ori     a2,a2,192
        sb      a2,8(sp)
        andi    a1,a1,63
        ori     a1,a1,128
        sb      a1,9(sp)
        li      a2,2
        j       __mut_W_as_core.fmt.Write_.write_char.2.4
__mut_W_as_core.fmt.Write_.write_char.2.2.2:
        srli    a2,a1,16
        bnez    a2,__mut_W_as_core.fmt.Write_.write_char.2.3
        srli    a2,a1,12
        ori     a2,a2,224
        sb      a2,8(sp)
        srli    a2,a1,6
        andi    a2,a2,63
        ori     a2,a2,128
        sb      a2,9(sp)
        andi    a1,a1,63
        ori     a1,a1,128
        sb      a1,10(sp)
        li      a2,3
        j       __mut_W_as_core.fmt.Write_.write_char.2.4
__mut_W_as_core.fmt.Write_.write_char.2.3:
        srli    a2,a1,18
        ori     a2,a2,240
        sb      a2,8(sp)
        srli    a2,a1,12
        andi    a2,a2,63
        ori     a2,a2,128
        sb      a2,9(sp)
        srli    a2,a1,6
        andi    a2,a2,63
        ori     a2,a2,128
        sb      a2,10(sp)
        andi    a1,a1,63
        ori     a1,a1,128
        sb      a1,11(sp)
        li      a2,4
__mut_W_as_core.fmt.Write_.write_char.2.4:
        addi    a1,sp,8
        call    _core.fmt.builders.PadAdapter_as_core.fmt.Write_.write_str
        lw      ra,12(sp)
        addi    sp,sp,16
        ret

__mut_W_as_core.fmt.Write_.write_fmt.2:
        addi    sp,sp,-48
        sw      ra,44(sp)
        lw      a0,0(a0)
        lw      a2,20(a1)
        lw      a3,16(a1)
        sw      a0,12(sp)
        sw      a2,36(sp)
        sw      a3,32(sp)
        lw      a0,12(a1)
        lw      a2,8(a1)
        lw      a3,4(a1)
        lw      a1,0(a1)
        sw      a0,28(sp)
        sw      a2,24(sp)
        sw      a3,20(sp)
        sw      a1,16(sp)
        lui     a0,%hi(rodata.1044)
        addi    a1,a0,%lo(rodata.1044)
        addi    a0,sp,12
        addi    a2,sp,16
        call    core.fmt.write
        lw      ra,44(sp)
        addi    sp,sp,48
        ret
        .space  4

        .rodata
anon.b8b077a05a6d57b8b19e080ff27c9a5d.0.llvm.868318251082372115:
        .word   core.ptr.drop_in_place__u32_,4,4,__T_as_core.fmt.Debug_.fmt
rodata.10:
        .word   core.ptr.drop_in_place__mut_demo.Serial_,4,4,__mut_W_as_core.fmt.Write_.write_str
        .word   __mut_W_as_core.fmt.Write_.write_char,__mut_W_as_core.fmt.Write_.write_fmt
text:
        .asciz  "\n"
        .space  2
rodata.2c:
        .word   text,0,text,1
text.sum_of:
        .ascii  "sum "
text.of:
        .ascii  " of "
rodata.44:
        .word   text.sum_of,4,text.of,4
        .word   text,1
text.tests_c_programs_dem:
        .ascii  "tests/c_programs/demo.rs"
rodata.74:
        .word   text.tests_c_programs_dem,24,45,5
anon.d8baefb1ceef499e2c940a0845b5f94b.0.llvm.9151028078758918862:
        .ascii  "/usr/src/rustc-1.63.0/library/core/src/fmt/num.rs"
        .space  3
anon.d8baefb1ceef499e2c940a0845b5f94b.1.llvm.9151028078758918862:
        .word   anon.d8baefb1ceef499e2c940a0845b5f94b.0.llvm.9151028078758918862,49,101,20
anon.d8baefb1ceef499e2c940a0845b5f94b.4.llvm.9151028078758918862:
        .ascii  "0x"
anon.d8baefb1ceef499e2c940a0845b5f94b.5.llvm.9151028078758918862:
        .ascii  "0001020304050607080910111213141516171819202122232425262728293031323334353637383940414243444546474849"
        .ascii  "5051525354555657585960616263646566676869707172737475767778798081828384858687888990919293949596979899"
        .space  2
rodata.194:
        .word   _char_as_core.fmt.Debug_.fmt.12,_char_as_core.fmt.Debug_.fmt.5,_char_as_core.fmt.Debug_.fmt.5,_char_as_core.fmt.Debug_.fmt.5
        .word   _char_as_core.fmt.Debug_.fmt.5,_char_as_core.fmt.Debug_.fmt.5,_char_as_core.fmt.Debug_.fmt.5,_char_as_core.fmt.Debug_.fmt.5
        .word   _char_as_core.fmt.Debug_.fmt.5,_char_as_core.fmt.Debug_.fmt.3,_char_as_core.fmt.Debug_.fmt.7,_char_as_core.fmt.Debug_.fmt.5
        .word   _char_as_core.fmt.Debug_.fmt.5,_char_as_core.fmt.Debug_.fmt.8,_char_as_core.fmt.Debug_.fmt.5,_char_as_core.fmt.Debug_.fmt.5
        .word   _char_as_core.fmt.Debug_.fmt.5,_char_as_core.fmt.Debug_.fmt.5,_char_as_core.fmt.Debug_.fmt.5,_char_as_core.fmt.Debug_.fmt.5
        .word   _char_as_core.fmt.Debug_.fmt.5,_char_as_core.fmt.Debug_.fmt.5,_char_as_core.fmt.Debug_.fmt.5,_char_as_core.fmt.Debug_.fmt.5
        .word   _char_as_core.fmt.Debug_.fmt.5,_char_as_core.fmt.Debug_.fmt.5,_char_as_core.fmt.Debug_.fmt.5,_char_as_core.fmt.Debug_.fmt.5
        .word   _char_as_core.fmt.Debug_.fmt.5,_char_as_core.fmt.Debug_.fmt.5,_char_as_core.fmt.Debug_.fmt.5,_char_as_core.fmt.Debug_.fmt.5
        .word   _char_as_core.fmt.Debug_.fmt.5,_char_as_core.fmt.Debug_.fmt.5,_char_as_core.fmt.Debug_.fmt.5,_char_as_core.fmt.Debug_.fmt.5
        .word   _char_as_core.fmt.Debug_.fmt.5,_char_as_core.fmt.Debug_.fmt.5,_char_as_core.fmt.Debug_.fmt.5,_char_as_core.fmt.Debug_.fmt.6
rodata.234:
        .word   _char_as_core.fmt.Debug_.fmt.25,_char_as_core.fmt.Debug_.fmt.16,_char_as_core.fmt.Debug_.fmt.18,_char_as_core.fmt.Debug_.fmt.20
        .word   _char_as_core.fmt.Debug_.fmt.21,_char_as_core.fmt.Debug_.fmt.22
anon.fba9fc9ea3f826b8676d1b9577995e40.2.llvm.10883324732055980791:
        .word   core.ptr.drop_in_place_core.fmt.builders.PadAdapter_,12,4,_core.fmt.builders.PadAdapter_as_core.fmt.Write_.write_str
        .word   core.fmt.Write.write_char,core.fmt.Write.write_fmt
anon.e66d31e934930cb5a5f0e22b6120d3c4.2.llvm.9959610619709681070:
        .word   0x65646e69,0x756f2078,0x666f2074,0x756f6220,0x3a73646e,0x65687420,0x6e656c20,0x20736920
        .word   0,48,0,2,0,1,1
        .space  4
text.but_the_index_is:
        .asciz  " but the index is "
        .space  1
rodata.2b8:
        .word   anon.e66d31e934930cb5a5f0e22b6120d3c4.2.llvm.9959610619709681070,32,text.but_the_index_is,18
anon.e66d31e934930cb5a5f0e22b6120d3c4.38.llvm.9959610619709681070:
        .ascii  ":"
        .space  3
anon.e66d31e934930cb5a5f0e22b6120d3c4.39.llvm.9959610619709681070:
        .word   anon.e66d31e934930cb5a5f0e22b6120d3c4.2.llvm.9959610619709681070,0,anon.e66d31e934930cb5a5f0e22b6120d3c4.38.llvm.9959610619709681070,1
        .word   anon.e66d31e934930cb5a5f0e22b6120d3c4.38.llvm.9959610619709681070,1
rodata.2e4:
        .word   core.ptr.drop_in_place__u64_,0,1,_T_as_core.any.Any_.type_id
text.panicked_at:
        .ascii  "panicked at "
text.2:
        .ascii  "'"
text.3:
        .ascii  "', "
rodata.304:
        .word   text.2,1,text.3,3
text.called_Option_unwrap:
        .ascii  "called `Option::unwrap()` on a `None` value"
anon.6faced9d47e33af16d5b46738c8e8b19.37.llvm.6802945453016007571:
        .ascii  "/usr/src/rustc-1.63.0/library/core/src/slice/memchr.rs"
        .space  3
anon.6faced9d47e33af16d5b46738c8e8b19.38.llvm.6802945453016007571:
        .word   anon.6faced9d47e33af16d5b46738c8e8b19.37.llvm.6802945453016007571,54,87,5
text.usr_src_rustc_1_63_0:
        .asciz  "/usr/src/rustc-1.63.0/library/core/src/unicode/printable.rs"
rodata.3c4:
        .word   text.usr_src_rustc_1_63_0,59,10,28
rodata.3d4:
        .word   text.usr_src_rustc_1_63_0,59,26,54
anon.6faced9d47e33af16d5b46738c8e8b19.45.llvm.6802945453016007571:
        .word   0x5030100,0x2060605,0x7080607,0x1c0a1109,0x1a0c190b,0xd0e100d,0x310040f,0x9131212
        .word   0x4170116,0x3190118,0x11b071a,0x161f021c,0x32b0320,0x12e0b2d,0x2310330,0x2a70132
        .word   0x4aa02a9,0x2fa08ab,0x2fd05fb,0x9ff03fe
anon.6faced9d47e33af16d5b46738c8e8b19.46.llvm.6802945453016007571:
        .word   0x8b7978ad,0x5730a28d,0x908c8b58,0xf0edd1c,0xfcfb4c4b,0x5c3f2f2e,0x84e25f5d,0x92918e8d
        .word   0xbbbab1a9,0xcac9c6c5,0xffe5e4de,0x12110400,0x37343129,0x493d3b3a,0x8e845d4a,0xb4b1a992
        .word   0xcac6bbba,0xe5e4cfce,0xe0d0400,0x31291211,0x453b3a34,0x5e4a4946,0x91846564,0xcec99d9b
        .word   0x29110dcf,0x49453b3a,0x5e5c5b57,0x8d65645f,0xbab4a991,0xdfc9c5bb,0xdf0e5e4,0x64494511
        .word   0xb2848065,0xd5bfbebc,0x83f1f0d7,0xa6a48b85,0xc7c5bfbe,0xdbdacfce,0xcdbd9848,0x49cfcec6
        .word   0x59574f4e,0x8e895f5e,0xb7b6b18f,0xc7c6c1bf,0x171611d7,0xf7f65c5b,0x6d80fffe,0xedfde71
        .word   0x1c6f6e1f,0x7e7d5f1d,0xbb7fafae,0x1e1716bc,0x4e47461f,0x5c5a584f,0xb57f7e5e,0xdcd5d4c5
        .word   0x72f5f1f0,0x75748f73,0x2f2e2696,0xbfb7afa7,0xdfd7cfc7,0x9897409a,0xd21f8f30,0x4effced4
        .word   0x75b5a4f,0x27100f08,0x6eefee2f,0x3f3d376f,0x91904542,0xc8756753,0xd8d1d0c9,0xfffee7d9
anon.6faced9d47e33af16d5b46738c8e8b19.47.llvm.6802945453016007571:
        .byte   0,32,95,34,130,223,4,130,68,8,27,4,6,17,129,172
        .byte   14,128,171,5,31,9,129,27,3,25,8,1,4,47,4,52
        .byte   4,7,3,1,7,6,7,17,10,80,15,18,7,85,7,3
        .byte   4,28,10,9,3,8,3,7,3,2,3,3,3,12,4,5
        .byte   3,11,6,1,14,21,5,78,7,27,7,87,7,2,6,22
        .byte   13,80,4,67,3,45,3,1,4,17,6,15,12,58,4,29
        .byte   37,95,32,109,4,106,37,128,200,5,130,176,3,26,6,130
        .byte   253,3,89,7,22,9,24,9,20,12,20,12,106,6,10,6
        .byte   26,6,89,7,43,5,70,10,44,4,12,4,1,3,49,11
        .byte   44,4,26,6,11,3,128,172,6,10,6,47,49,77,3,128
        .byte   164,8,60,3,15,3,60,7,56,8,43,5,130,255,17,24
        .byte   8,47,17,45,3,33,15,33,15,128,140,4,130,151,25,11
        .byte   21,136,148,5,47,5,59,7,2,14,24,9,128,190,34,116
        .byte   12,128,214,26,12,5,128,255,5,128,223,12,242,157,3,55
        .byte   9,129,92,20,128,184,8,128,203,5,10,24,59,3,10,6
        .byte   56,8,70,8,12,6,116,11,30,3,90,4,89,9,128,131
        .byte   24,28,10,22,9,76,4,128,138,6,171,164,12,23,4,49
        .byte   161,4,129,218,38,7,12,5,5,128,166,16,129,245,7,1
        .byte   32,42,6,76,4,128,141,4,128,190,3,27,3,15,13
anon.6faced9d47e33af16d5b46738c8e8b19.48.llvm.6802945453016007571:
        .byte   0,6,1,1,3,1,4,2,5,7,7,2,8,8,9,2
        .byte   10,5,11,2,14,4,16,1,17,2,18,5,19,17,20,1
        .byte   21,2,23,2,25,13,28,5,29,8,36,1,106,4,107,2
        .byte   175,3,188,2,207,2,209,2,212,12,213,9,214,2,215,2
        .byte   218,1,224,5,225,2,231,4,232,2,238,32,240,4,248,2
        .byte   250,2,251,1
anon.6faced9d47e33af16d5b46738c8e8b19.49.llvm.6802945453016007571:
        .byte   12,39,59,62,78,79,143,158,158,159,123,139,147,150,162,178
        .byte   186,134,177,6,7,9,54,61,62,86,243,208,209,4,20,24
        .byte   54,55,86,87,127,170,174,175,189,53,224,18,135,137,142,158
        .byte   4,13,14,17,18,41,49,52,58,69,70,73,74,78,79,100
        .byte   101,92,182,183,27,28,7,8,10,11,20,23,54,57,58,168
        .byte   169,216,217,9,55,144,145,168,7,10,59,62,102,105,143,146
        .byte   111,95,191,238,239,90,98,244,252,255,154,155,46,47,39,40
        .byte   85,157,160,161,163,164,167,168,173,186,188,196,6,11,12,21
        .byte   29,58,63,69,81,166,167,204,205,160,7,25,26,34,37,62
        .byte   63,231,236,239,255,197,198,4,32,35,37,38,40,51,56,58
        .byte   72,74,76,80,83,85,86,88,90,92,94,96,99,101,102,107
        .byte   115,120,125,127,138,164,170,175,176,192,208,174,175,110,111,147
anon.6faced9d47e33af16d5b46738c8e8b19.50.llvm.6802945453016007571:
        .byte   94,34,123,5,3,4,45,3,102,3,1,47,46,128,130,29
        .byte   3,49,15,28,4,36,9,30,5,43,5,68,4,14,42,128
        .byte   170,6,36,4,36,4,40,8,52,11,78,67,129,55,9,22
        .byte   10,8,24,59,69,57,3,99,8,9,48,22,5,33,3,27
        .byte   5,1,64,56,4,75,5,47,4,10,7,9,7,64,32,39
        .byte   4,12,9,54,3,58,5,26,7,4,12,7,80,73,55,51
        .byte   13,51,7,46,8,10,129,38,82,78,40,8,42,22,26,38
        .byte   28,20,23,9,78,4,36,9,68,13,25,7,10,6,72,8
        .byte   39,9,117,11,63,65,42,6,59,5,10,6,81,6,1,5
        .byte   16,3,5,128,139,98,30,72,8,10,128,166,94,34,69,11
        .byte   10,6,13,19,58,6,10,54,44,4,23,128,185,60,100,83
        .byte   12,72,9,10,70,69,27,72,8,83,13,73,129,7,70,10
        .byte   29,3,71,73,55,3,14,8,10,6,57,7,10,129,54,25
        .byte   128,183,1,15,50,13,131,155,102,117,11,128,196,138,76,99
        .byte   13,132,47,143,209,130,71,161,185,130,57,7,42,4,92,6
        .byte   38,10,70,10,40,5,19,130,176,91,101,75,4,57,7,17
        .byte   64,5,11,2,14,151,248,8,132,214,42,9,162,231,129,51
        .byte   45,3,17,4,8,129,140,137,4,107,5,13,3,9,7,16
        .byte   146,96,71,9,116,60,128,246,10,115,8,112,21,70,128,154
        .byte   20,12,87,9,25,128,135,129,71,3,133,66,15,21,132,80
        .byte   31,128,225,43,128,213,45,3,26,4,2,129,64,31,17,58
        .byte   5,1,132,224,128,247,41,76,4,10,4,2,131,17,68,76
        .byte   61,128,194,60,6,1,4,85,5,27,52,2,129,14,44,4
        .byte   100,12,86,10,128,174,56,29,13,44,4,9,7,2,14,6
        .byte   128,154,131,216,5,16,3,13,3,116,12,89,7,12,4,1
        .byte   15,12,4,56,8,10,6,40,8,34,78,129,84,12,21,3
        .byte   5,3,7,9,29,3,11,5,6,10,10,6,8,8,7,9
        .byte   128,203,37,10,132,6
text.4:
        .asciz  ".."
rodata.950:
        .word   text.4,2
text.range_start_index_ou:
        .ascii  "range start index "
text.out_of_range_for_sli:
        .ascii  " out of range for slice of length "
rodata.98c:
        .word   text.range_start_index_ou,18,text.out_of_range_for_sli,34
text.usr_src_rustc_1_63_0.2:
        .asciz  "/usr/src/rustc-1.63.0/library/core/src/slice/index.rs"
        .space  2
rodata.9d4:
        .word   text.usr_src_rustc_1_63_0.2,53,52,5
rodata.9e4:
        .word   0x676e6172,0x6e652065,0x6e692064,0x20786564
rodata.9f4:
        .word   rodata.9e4,16,text.out_of_range_for_sli,34
rodata.a04:
        .word   text.usr_src_rustc_1_63_0.2,53,73,5
text.slice_index_starts_a:
        .ascii  "slice index starts at "
text.but_ends_at:
        .asciz  " but ends at "
rodata.a38:
        .word   text.slice_index_starts_a,22,text.but_ends_at,13
rodata.a48:
        .word   text.usr_src_rustc_1_63_0.2,53,92,5,0x65726c61,0x20796461,0x72726f62,0x6465776f
rodata.a68:
        .word   0x68772029,0x73206e65,0x6963696c,0x6020676e
core.unicode.unicode_data.white_space.SHORT_OFFSET_RUNS:
        .word   5760,0x1202000,0x1603000,0x2713001
        .ascii  "iter"
text.kindZerocalled_Optio:
        .ascii  " <= kindZero"
text.called_Option_unwrap.2:
        .asciz  "called `Option::unwrap()` on a `None` value"
rodata.ac4:
        .byte   47,117,115,114,47,115,114,99,47,114,117,115,116,99,45,49
        .byte   46,54,51,46,48,47,108,105,98,114,97,114,121,47,99,111
        .byte   114,101,47,115,114,99,47,115,116,114,47,109,111,100,46,114
        .byte   115
rodata.af5:
        .byte   91,46,46,46,93
rodata.afa:
        .byte   98,121,116,101,32,105,110,100,101,120,32
rodata.b05:
        .byte   32,105,115,32,111,117,116,32,111,102,32,98,111,117,110,100
        .byte   115,32,111,102,32,96
rodata.b1b:
        .byte   96
rodata.b1c:
        .word   rodata.afa,11,rodata.b05,22
        .word   rodata.b1b,1
rodata.b34:
        .word   rodata.ac4,49,107,9
text.begin_end:
        .asciz  "begin <= end ("
        .space  1
rodata.b54:
        .word   text.begin_end,14,text.kindZerocalled_Optio,4
        .word   rodata.a68,16,rodata.b1b,1
rodata.b74:
        .word   rodata.ac4,49,111,5
rodata.b84:
        .word   rodata.ac4,49,125,45
rodata.b94:
        .byte   32,105,115,32,110,111,116,32,97,32,99,104,97,114,32,98
        .byte   111,117,110,100,97,114,121,59,32,105,116,32,105,115,32,105
        .byte   110,115,105,100,101,32
rodata.bba:
        .byte   32,40,98,121,116,101,115,32,65,115,99,105,105,83,116,114
        .byte   66,105,97,115,101,100,70,112
rodata.bd2:
        .byte   41,32
        .word   0x6020666f
rodata.bd8:
        .word   rodata.afa,11,rodata.b94,38
        .word   rodata.bba,8,rodata.bd2,6
        .word   rodata.b1b,1
rodata.c00:
        .word   rodata.ac4,49,127,5
rodata.c10:
        .word   rodata.ac4,49,261,29
anon.9a84fdda245b6bb1ae829b78c34ea9d1.57.llvm.1676802691956877317:
        .ascii  "/usr/src/rustc-1.63.0/library/core/src/unicode/unicode_data.rs"
        .space  2
anon.9a84fdda245b6bb1ae829b78c34ea9d1.58.llvm.1676802691956877317:
        .word   anon.9a84fdda245b6bb1ae829b78c34ea9d1.57.llvm.1676802691956877317,62,75,40
anon.9a84fdda245b6bb1ae829b78c34ea9d1.59.llvm.1676802691956877317:
        .word   anon.9a84fdda245b6bb1ae829b78c34ea9d1.57.llvm.1676802691956877317,62,87,22
anon.9a84fdda245b6bb1ae829b78c34ea9d1.60.llvm.1676802691956877317:
        .word   anon.9a84fdda245b6bb1ae829b78c34ea9d1.57.llvm.1676802691956877317,62,82,62
core.unicode.unicode_data.grapheme_extend.SHORT_OFFSET_RUNS:
        .word   768,0x200483,0x600591,0xa0135d,0x1f201712,0x1f60200c,0x2ba02cef,0x2c20302a
        .word   0x2ce0a66f,0x2d60a802,0x2e60fb1e,0x3620fe00,0x3660ff9e,0x36e101fd,0x37210a01,0x37e10d24
        .word   0x39610eab,0x39a1182f,0x47e11c30,0x4c211ef3,0x4fe16af0,0x50216f4f,0x50a1bc9d,0x5161cf00
        .word   0x51a1d165,0x5221da00,0x53e1e000,0x5561e130,0x56a1e2ae,0x56e1e8d0,0x576e0020,0x57ff01f0
core.unicode.unicode_data.grapheme_extend.OFFSETS:
        .byte   0,112,0,7,0,45,1,1,1,2,1,2,1,1,72,11
        .byte   48,21,16,1,101,7,2,6,2,2,1,4,35,1,30,27
        .byte   91,11,58,9,9,1,24,4,1,9,1,3,1,5,43,3
        .byte   60,8,42,24,1,32,55,1,1,1,4,8,4,1,3,7
        .byte   10,2,29,1,58,1,1,1,2,4,8,1,9,1,10,2
        .byte   26,1,2,2,57,1,4,2,4,2,2,3,3,1,30,2
        .byte   3,1,11,2,57,1,4,5,1,2,4,1,20,2,22,6
        .byte   1,1,58,1,1,2,1,4,8,1,7,3,10,2,30,1
        .byte   59,1,1,1,12,1,9,1,40,1,3,1,55,1,1,3
        .byte   5,3,1,4,7,2,11,2,29,1,58,1,2,1,2,1
        .byte   3,1,5,2,7,2,11,2,28,2,57,2,1,1,2,4
        .byte   8,1,9,1,10,2,29,1,72,1,4,1,2,3,1,1
        .byte   8,1,81,1,2,7,12,8,98,1,2,9,11,6,74,2
        .byte   27,1,1,1,1,1,55,14,1,5,1,2,5,11,1,36
        .byte   9,1,102,4,1,6,1,2,2,2,25,2,4,3,16,4
        .byte   13,1,2,2,6,1,15,1,0,3,0,3,29,2,30,2
        .byte   30,2,64,2,1,7,8,1,2,11,9,1,45,3,1,1
        .byte   117,2,34,1,118,3,4,2,9,1,6,3,219,2,2,1
        .byte   58,1,1,7,1,1,1,1,2,8,6,10,2,1,48,31
        .byte   49,4,48,7,1,1,5,1,40,9,12,2,32,4,2,2
        .byte   1,3,56,1,1,2,3,1,1,3,58,8,2,2,152,3
        .byte   1,13,1,7,4,1,6,1,3,2,198,64,0,1,195,33
        .byte   0,3,141,1,96,32,0,6,105,2,0,4,1,10,32,2
        .byte   80,2,0,1,3,1,4,1,25,2,5,1,151,2,26,18
        .byte   13,1,38,8,25,11,46,3,48,1,2,4,2,2,39,1
        .byte   67,6,2,2,2,2,12,1,8,1,47,1,51,1,1,3
        .byte   2,2,5,2,1,1,42,2,8,1,238,1,2,1,4,1
        .byte   0,1,0,16,16,16,0,2,0,1,226,1,149,5,0,3
        .byte   1,2,5,4,40,3,4,1,165,2,0,4,0,2,153,11
        .byte   49,4,123,1,54,15,41,1,2,2,10,3,49,4,2,2
        .byte   7,1,61,3,36,5,1,8,62,1,12,2,52,9,10,4
        .byte   2,1,95,3,2,1,1,2,6,1,160,1,3,8,21,2
        .byte   57,2,1,1,1,1,22,1,14,7,3,5,195,8,2,3
        .byte   1,1,23,1,81,1,2,6,1,1,2,1,1,2,1,2
        .byte   235,1,2,4,6,2,1,2,27,2,85,8,2,1,1,2
        .byte   106,1,1,1,2,6,1,1,101,3,2,4,1,5,0,9
        .byte   1,2,245,1,10,2,1,1,4,1,144,4,2,2,4,1
        .byte   32,10,40,6,2,4,8,1,9,6,2,3,46,13,1,2
        .byte   0,7,1,6,1,1,82,22,2,7,1,2,1,2,122,6
        .byte   3,1,1,2,1,7,1,1,72,2,3,1,1,1,0,2
        .byte   0,5,59,7,0,1,63,4,81,1,0,2,0,46,2,23
        .byte   0,1,1,3,4,5,8,8,2,7,30,4,148,3,0,55
        .byte   4,50,8,1,14,1,22,5,1,15,0,7,1,17,2,7
        .byte   1,2,1,5,0,7,0,1,61,4,0,7,109,7,0,96
        .byte   128,240
        .space  1
text.datawakedrop_usr_src:
        .ascii  "    datawakedrop"
text.usr_src_rustc_1_63_0.3:
        .asciz  "/usr/src/rustc-1.63.0/library/core/src/fmt/builders.rs"
        .space  2
rodata.101c:
        .word   text.usr_src_rustc_1_63_0.3,54,47,33
rodata.102c:
        .word   text.usr_src_rustc_1_63_0.3,54,48,18
anon.d66a73ded65ac612f4034618de25475a.31.llvm.14375515377028938436:
        .ascii  ",\n"
anon.d66a73ded65ac612f4034618de25475a.32.llvm.14375515377028938436:
        .ascii  ", "
anon.d66a73ded65ac612f4034618de25475a.43.llvm.14375515377028938436:
        .ascii  "\n"
anon.d66a73ded65ac612f4034618de25475a.45.llvm.14375515377028938436:
        .ascii  "["
anon.d66a73ded65ac612f4034618de25475a.49.llvm.14375515377028938436:
        .ascii  "]"
        .space  1
rodata.1044:
        .word   core.ptr.drop_in_place_char_,4,4,__mut_W_as_core.fmt.Write_.write_str.2
        .word   __mut_W_as_core.fmt.Write_.write_char.2,__mut_W_as_core.fmt.Write_.write_fmt.2
__init_array_end:
__preinit_array_end:
__init_array_start:
__preinit_array_start:
