# Made by elf2s of words.elf: 8000 bytes, entry 0x80000000.

        .text
        nop
        ecall
        ebreak
        mret
        wfi
        .word   4111
        fence
        .word   0x0000000f              # fence unknown,unknown
        .word   0x8330000f              # fence.tso
        .word   0x1100f,0xf00f,0,-1
        lui     a0,0x0
        addi    a0,a0,5
        .word   0x02051513              # slli a0,a0,0x20
        .word   0x42051513
        auipc   a0,0x0
        lw      a0,0(a0)
text.4c:
        call    text.4c
text.54:
        tail    text.54
        .word   0x10200073              # sret
        .word   0x12000073              # sfence.vma zero,zero
        .word   0x0100000f              # fence w,unknown
        .word   0x180022f3,0x2265b18f
        li      s0,0x414c3000
        auipc   zero,0x78e51
        .word   0x18072eb3
        lhu     t0,1772(s3)
        .word   0xb2221a73,0xcd447e0f,0xe6c3f303
        lh      t4,104(t2)
        .word   0xf06c144a,0xafbd67b3
        auipc   s3,0xb9d17
        li      a7,0xc381e000
        auipc   s1,0x8d883
        li      tp,0xad45f000
        lbu     s5,-196(a2)
        .word   0x6a8ac4ba,0x8e73ca47,0x19999e73,0xdc2574f3,0x552b82f6,0xf9270f4e,0xefba91fc,0x81f9c1f6
        sw      s9,-1366(s2)
        .word   0x966baea1,0x7fd63116
        lbu     a5,-2027(s4)
        .word   0x7af027b3,0x6a107b2f,0x8c7e134f,0xc69d4baf,0x1622bd63,0x1ba16215,0x855c3844
        lh      t0,1517(s5)
        .byte   115,93,37,120,162,74
text.102:
        .byte   42,217
        jal     t2,. - 333444
        auipc   sp,0x2b9c0
        auipc   t6,0xfb695
        .word   0x8a245e6b
        bltu    t6,t0,. - 1840
        .word   0x5804f922,0x93ea5c23,0xa8c24d73,0x1762773,0x83333218,0x84c81999
        lw      t4,841(s5)
        .word   0x7b297d0b
        bgeu    s6,t5,. - 1774
        .word   0x69d495af,0x6a17b9e3,0x8a449ee7,0x54c56c83
        xori    s0,a6,-801
        .word   0x8cfe5c8f,0xcc667ea3,0x84f3dd6,0xac512b03,0x73f7baa3,0x3fe31d67,0x2f429c8f
        bge     t5,a3,text.c16
        .word   0xf3b37f23
        bne     ra,t6,. - 3492
        .word   0x7467537a,0x7f1a3503,0x4fdf8e33,0xcbd3f58f,0x40e2a20a,0x8296f5ea
        lw      s7,-142(t5)
        .word   0x39b21c93,0x90b20bb,0x2904ace3
        auipc   s11,0xad9ce
        .word   0xfa1b1bf1,0xcc3d5537
text.1ac:
        lhu     s7,914(t1)
        .word   0x6518092f,0xa8ea3783
text.1b8:
        auipc   s5,0xbcc99
        .word   0xe023030f
        sh      t3,-589(a5)
        .word   0xbe6c6fe7
        beq     s5,s1,text.5dc
        jal     a5,. - 807410
        .word   0x973082d6,0xf652d008,0x75fa6df3,0x9f7a7db3
        auipc   a4,0x334de
        .word   0x92c93533,0x9766998f,0xf01dbf23,0x810d2e2f,0x9cb471a5,0xe6515093,0x336b1a45,0xcfa6cf3e
        .word   0xc85f0d33,0x36891e8f
        bne     t2,t2,. - 666
        .word   0x58068a9d
        li      a6,0xd6730000
        .word   0xc49872c6,0x3c116503,0x15ad9a93,0xe9367ea3
        bgeu    a0,t0,. - 3040
        .word   0xd75470af
        auipc   t4,0x571ce
        .word   0xde0f39a7,0xc78fec45,0xe323ce67,0x8d19821f,0x521b188f,0x6156c4df,0xc9c1ff93
        jalr    t3,1396(a0)
        .word   0xc82ad589
        auipc   sp,0x139f7
        sw      a4,-1763(t1)
        .byte   139,140
text.262:
        .byte   105,93
        .word   0x907f960f
        li      s11,0x75305000
        .word   0x1b943cfc,0xd3e89d67,0xaba018b3,0x1d775b7c,0xca357517,0xc91752a3
        li      s7,0x6bc78000
        slti    s0,s3,685
        .word   0xbe773448,0x6f62e63a,0x60d6c766,0x8afd2973,0x4b452173
        auipc   a0,0x7a1d5
        lbu     t1,-1426(s9)
        .word   0x2b087f8,0xecf45ce7,0x51fbfcaf,0x6607b62f
        li      t4,0xf845a000
        .word   0x1c823de7
        auipc   s11,0xc725b
        .word   0x8afc5bee
        sw      zero,1931(s6)
        sw      a4,767(a5)
        .word   0x32ffd00f
        li      s0,0xd1ea0000
        j       . + 672114
        .word   0x56c11669,0x63f666e0,0xa8266af,0xcaf078b0,0xe4bc6e82
        bltu    t6,a4,. + 1006
        .word   0x9c842b67,0x17903083,0xceea590f,0x449fd48f
        jal     a2,. - 339030
        .word   0x289eb2f,0x7e465b13,0x19d6d72f
        jal     a7,. + 870714
        .word   0x2c599813,0xfc2222af
        blt     s10,gp,text.81a
        .word   0xd5ae305b
        auipc   ra,0x4b222
        .word   0x24452ef3,0x8216b65,0xd22f02f3
        beq     s3,t3,. - 2868
        .word   0xd739543b
        xori    s6,a5,-54
        andi    zero,a2,1224
        .word   0xc6e5973,0xaaf38c0f
        beq     s9,s1,. - 3350
text.354:
        sw      a4,-791(s3)
        .word   0x8a97b9e3,0x740c1a2f
        lh      t2,702(a7)
        .word   0xcb0671b3
        lh      a0,-98(t6)
        andi    s3,t1,-1263
        sw      t6,-1682(t0)
        .word   0xfbb41d14
        addi    s6,a2,1629
        li      ra,0x9cc93000
        .word   0x1ea062f,0x803af506
        jal     s3,. - 940358
        .word   0xa39cc4b2
        jal     t5,. + 398288
        .word   0x7a946602
        bne     s10,t2,. - 3222
        .word   0x9c7d498a
        jal     gp,. - 76114
        .word   0x382f218f,0xc360b3af
        auipc   ra,0x28d2e
        .word   0x4fd24223
        andi    s6,a4,-619
        .word   0xb38742ad,0x76fbb68f,0xe587dd63,0x923c4e13
        jalr    a0,1026(a4)
        .word   0xb8378d82,0xd589a33,0xb7975b33,0x83dab265,0x8b5230ed,0xa6be20f,0xced5668f,0x447c999d
        .word   0x156eab79,0x239dc599,0x9ded54fd,0xa8e33c8f,0x71ef5e7a,0x3db18a28,0x61e1e80d
        ori     s7,a3,-396
        xori    a3,s6,-369
        .word   0x9f55c5fc,0xf59cd133,0x99c61a8f
        auipc   s4,0xa9172
        .word   0x60fc47fa,0x106bb05
        lbu     t4,-1932(t0)
        jalr    t5,126(t1)
        .word   0x3e036333,0x34e41e13,0x8ad6c1a3,0x95f2ee55
        sltiu   a2,a0,-687
        .word   0x8b9dd3b3
        auipc   sp,0xdb0f0
        .word   0x920f3663,0x346f328f
        jal     a1,. - 149898
        .word   0x1e39ef83
        jal     t5,. - 530248
        .word   0xc2d532fa
        beq     t3,gp,. - 3464
        sh      s10,1518(s9)
        .word   0x6fea51af
        lbu     a4,-989(s0)
        li      a2,0x1fb7f000
        .word   0x59a78b33,0x56e0a246,0xaef4258f,0xa5cd95e7
        lb      a3,1566(s0)
        .word   0xfead3be7,0xb8e7df9b,0xd454f36d,0x32e9c069,0x762a2be3,0x68b1f3c9,0xb64e172f,0x4e2a89f5
        bne     s6,a6,text.13de
        lbu     tp,808(a2)
        .word   0xadb55533,0xf86668e7,0x959d133d
        jal     s10,. - 873680
        .word   0xbfaf9e73
        jal     a0,. + 312310
        .word   0x4a778133
        jal     a4,. - 650358
        .word   0xc76330af
        sltiu   tp,zero,-891
        .word   0xc47adde7,0x297c0a3,0xcc5d375a
        sw      s11,-523(s5)
        sb      a4,637(t3)
        beqz    s6,. + 4038
        .word   0xb9e8d0f,0xbea7c80f
text.4fc:
        li      a3,0x5aece000
        .word   0x50dc5f3,0xf235628f,0x66e47923
        bltu    ra,a4,. - 1630
        .word   0x352c5faf,0x44e1b873,0xd4a74958,0xa8a62163,0x8ec23615,0x2b265473,0xb6a3ce92,0x8e65e4e7
        bgeu    a2,s6,text.102
        .word   0x6653c3a3,0xdde138f3,0x38e9dee7
        jal     a6,. - 416946
        .word   0x7d11b6b,0xde51832f
        auipc   ra,0xed914
        .word   0xc910c20f,0xa03a1915,0xdefd5670,0x718e3bf3
        sw      t5,578(t5)
        slti    t4,s5,1881
        .word   0xc7495df3,0x70d07eb3
        auipc   s10,0x3d90f
        .word   0xb7ee1a8f,0x1b3c132f,0x7e0b6723
text.580:
        .word   0xf48fe783
        auipc   t6,0xcf39e
        .word   0xaeecb573,0x874e263f,0xf6d0ac1d,0x7139bea3
        slti    a0,s3,483
        auipc   s9,0x18610
        .word   0x7eb9d193,0xf9333f23,0x766b5e33
        sb      gp,883(t6)
        .word   0x5482908f,0xe8d4248f,0xbd4f083,0xdb8ae033
        auipc   s11,0xd910d
        jal     a6,. + 112230
        .word   0x26fb5e56,0x7cc0413
        lw      t5,-507(a1)
        .word   0x90931193,0x145b5223
text.5dc:
        .word   0xe7f524e3
        andi    s6,t2,249
        .word   0xaf5e8d2,0xc7e2180f
        jal     s8,. + 725770
        .word   0x215c1c0b,0xafd03fb9,0x312218b3
        sh      t1,1362(t3)
        auipc   s11,0xa4401
        .word   0xf6839e7,0x2cdeec67
        bge     t2,a1,. - 3292
        .word   0xf819b72f
        auipc   s1,0x8c035
        .word   0xb62e9693,0x6c931d1a,0x11f10c60,0xbe47cc0f,0x4067978f
        auipc   t1,0x26a89
        lb      s1,-596(a0)
        beq     a0,s8,text.f06
        .word   0x781b510f
        andi    s4,s0,-63
        jal     a6,. - 126848
        .word   0x20d1eb7d,0xc36e5359,0xe1df6ff3,0x86464223
        sh      a4,-821(a3)
        .word   0x8c0e4a2,0xee3bdcb,0x502e5056,0x42a305d5,0xce9244ef
        auipc   t0,0x4dc23
        .word   0x80b3802f,0xec4c2733,0xf4cfd336,0x7b2cce6f
        bgeu    t4,s0,. - 2806
        .byte   168,98
text.686:
        .byte   41,184
        .word   0x94d43ede,0x891e53a3,0xbe40f3af,0x63a5228f,0x68d52ee7
        jal     s4,. + 710920
        .word   0x889f5ea3,0x519cd4af,0xbfad3261,0x8045430f,0x2614e7f3,0x5358bf46,0x92b75623,0x7acd7a2f
        .word   0xed7852ce,0x616a43de,0xece9d8e7,0xcd266e83,0x8611f8a3,0xc8b0da67
        jal     s0,. - 760846
        li      a5,0x5ec12000
        .word   0x9927a8fd,0x88399103
        auipc   a5,0x25fa9
        .word   0x90120e8f,0x2f41f7cd,0xf06f217a,0xcd3aee8,0xfa8545a3,0xb6f3d0a3
        beq     a6,a7,text.101c
        .word   0xa41aaf8f,0xcb517e6a,0xa4ab4eec,0x82f01b58
        li      s7,0x597e000
        .word   0xb5d4ce45,0x384da682
        auipc   t2,0x991ba
        .word   0x6ce9e72f,0x8b62ccba,0x3056ddb0,0xb9cf3da3,0x68457e73,0x883062fa,0x83a81a4e
        blt     t6,s8,text.87c
        .word   0xcbd5da33
        li      t4,0xa453000
        sb      s10,6(t2)
        lbu     t1,-1246(s9)
        sh      t2,-1888(zero)
        .word   0x8332ac33,0xbf323ee3
        bge     gp,s2,text.1b8
        bge     tp,t0,text.1404
        .word   0xf08b5652,0xf40ff967,0xa14566b7
        li      t6,0x4d49f000
        slti    t1,a1,-1695
        sra     ra,t2,a1
        lhu     s9,-1081(t1)
        sb      tp,1528(s10)
        jal     s4,text.686
        .word   0x4b15253
        lb      a2,-307(a5)
        sh      sp,1568(a5)
        .word   0xcbc0981c,0xa2c63133,0x7b3e5daa,0x6372098f,0x7bd55833
        ori     t1,s0,607
        xori    ra,a1,-762
        jal     a3,. - 97938
        .word   0xf31aeb00,0x4207158a,0x498afb13,0xb0fa622f,0xc6e95218,0x3728aab9,0x7dcada54,0x66e33812
        .word   0x17647f97,0xf76d83f3,0x6b0da13,0x7ad35305,0x1954f173,0x2ffbbd51,0x16d35203,0x8cb25233
        jal     t5,. + 95628
        .word   0xf837a7d6,0xbc098fb3,0xd5bc9f0f
        sb      a2,-3(ra)
        .word   0x2dd5adf3
        auipc   a0,0xdb9be
        .byte   51,54
text.81a:
        .byte   67,173
        sh      s11,494(ra)
        .word   0xae94e3b3
        li      a5,0x1dbc7000
        .word   0x1b17a767,0xe7c7999c,0x2ac899b3,0xbe40d9f3
        li      t2,0xfdf7f000
        .word   0xa237b196,0x8b77bab0,0xc9e901e1,0x564b7be9,0x1a54fef3
text.850:
        .word   0xa843a873
        jal     a2,. + 859206
        .word   0x70b44e0f,0x3a82eb23
        addi    t4,s11,-1204
        .word   0x2154e333
        lhu     tp,-1799(t2)
        .word   0x88644451,0x8265c933,0x452959f3
        auipc   a4,0x4e48b
text.87c:
        li      s10,0x7fae9000
        .word   0x3ddd9867,0xc2485ee7
        sltiu   a3,a0,-1253
        .word   0xee3b963
        auipc   zero,0xb0aae
        li      s3,0x50bbd000
        .word   0x547d9b13,0xb2c6fb8f,0xa2a092f3
        jal     a0,. + 970956
        auipc   t6,0x1dbb2
        .word   0x80c5b523
        lb      a5,1729(s3)
        jalr    zero,-731(s9)
        auipc   tp,0x38636
        .word   0x47b963af
        beq     tp,a4,text.d1a
        .word   0x6118442f
        sb      a3,1415(a3)
        .byte   61,72,11,230,175,74,99,174,15,219
text.8d6:
        .byte   206,19
        .word   0x4ccbe4a3
        lw      tp,-1927(a1)
        .word   0x140ca1b3,0x5f3f23f3,0xa36cbf8f
        lw      s2,-1313(s10)
        .word   0x83e6a37a,0xf57dd6ab,0x5a346e04
        addi    t5,t3,-857
        .word   0x9b2d537d
        jal     s9,. + 357462
        bgeu    t4,s9,. - 3806
        bgeu    t6,s11,text.10a0
        auipc   a3,0xef13e
        addi    s11,s5,-1505
        .word   0xdcef30f,0x2cd66a33,0x46453b23
        bgeu    ra,t6,text.1ac
        .word   0x4301b633,0xb578afaf
        bltu    t4,s10,text.1234
        .word   0x5cf6e773
        lb      tp,-2018(tp)
        jal     a3,. - 407066
        .word   0x21d89767
        auipc   s8,0x24554
        .word   0x7bec1bce,0xd9259496,0x5d769cea,0x28e68ab3,0xd548050f,0xfa095523
        jal     a7,. + 543928
        .word   0x9a8b0920,0x898b2252,0xeb70399f
        bne     ra,t6,. + 526
        .word   0xf13a0899,0x75a3ae33
        sw      s3,-1649(s6)
        .word   0xeefb98b3,0x9b14570f,0x7883fb1e,0xa565b245,0x26ae8b
        addi    t5,t4,-690
        .word   0x87cb2d2f,0x8d103fe7,0xe8b437fe,0x5b3e361b,0xd1d86867,0x3d644b2f
        lw      t5,-525(s6)
        .word   0xea955e0e,0x6c220d3f,0x58a43d6f,0xfeec111e,0xea63aa33,0x6a3932a3,0xc1000bea,0x70e6b31e
        bgeu    sp,a5,text.15b0
        jal     s2,. + 371278
        .word   0x1d0e6fde
        jal     t1,. + 346816
        .word   0x7cc8d334,0xc1e9e3be
        li      t2,0xf9a6a000
        jal     s1,. - 663974
        .word   0xd57715f1,0x65b1d230,0x1985b5af
        jal     s0,. - 525696
        .word   0x76181cc4
        jal     gp,. + 712168
        .word   0xb926e626
        bgeu    a3,s1,text.1902
        .word   0x1ed334a3
        lw      s7,-657(s3)
        .word   0x60497283
        xori    s5,t2,-1424
        .word   0x7573bb6c,0xaacf05a3,0xeaff5263,0xd3765e23,0x4cf3aef,0xb466120d,0xe9a378f3,0x640af86c
text.a44:
        .word   0x8b4bae04,0xfb6eb393
        jal     s11,. - 367976
        bgeu    a7,s3,text.1616
        xori    s9,a6,-265
        lh      s5,719(s1)
        auipc   a6,0x835bb
        bge     s11,s5,. - 2896
        beq     sp,s8,. - 3194
        bne     s8,a2,text.580
        li      t3,0x13c4b000
        .word   0x1e7ce803,0x6311998f,0xa4352c10,0xb83c705,0x3d3bc16b,0x5567ef4,0x4fdfbcf3,0x6a621393
        .word   0xfc72012f
        li      t6,0xc545f000
        .word   0xfdf91133,0x8dc723b3
        auipc   a7,0xb2d3d
        .word   0x7ed224ed,0x5c285d6d
        andi    s10,s6,1062
        .word   0xc7d2d9b2,0x156af840,0x560b9ad2,0x422afd2f
        li      a0,0x625f0000
        slti    a3,t0,55
        auipc   a2,0xf574c
        .word   0x1209a614
        bge     s10,s9,text.354
        .word   0x6de12c08
        bltu    a0,s6,text.16a4
        auipc   s0,0x75e39
        .word   0x1523498f,0x27304c5f,0xeb9f2b3
        andi    s7,t2,1567
        jal     sp,. - 253580
        auipc   a2,0x89db4
        .byte   163,83,148,217,51,65
text.afe:
        .byte   209,51
        .word   0x5b5b46b3,0x2da54a73,0x24d03663,0x4ab15fa3,0x35763838,0x59b5c67,0x97b449af,0xc13733e7
        .word   0xee95a2f,0x28ef543b,0xf4e65212,0xd266b033,0xa2285873,0x353719b3,0x1f1ef074,0xfc570dd0
        .word   0xd1bc7a14,0xa92daea2,0x224adc1f
text.b4c:
        .word   0x940ea603
        auipc   gp,0xb7bbe
        .word   0xfc741d8c
        bltu    a5,a2,text.195a
        .word   0x9d13b283
        jal     tp,. - 1021386
        auipc   s2,0xebded
        sb      a5,-592(s0)
        .word   0xc4d65433
        jal     a5,. + 29786
        .word   0xd4be2c52
        li      sp,0x2fc87000
        auipc   tp,0xc0f84
        .word   0x64d94b3e,0x89e598ba,0x561478e4,0x181230f3,0xaeba562,0xd5718413,0x9866ba63
        auipc   t3,0x62827
        .word   0x3b937167,0xfb41adad,0xfc0afb83,0x755d9967,0x2d417214,0xda92657b,0x49181067,0x8044b1e7
        .word   0x6573e4b3,0xcbf293e7,0xa56743a3
        lh      a5,-387(s9)
        .word   0x8d5c64d7,0xdf2c10b3,0x4dfaa7af
        jalr    t4,-839(t2)
        .word   0x8e456612,0x471c5867,0xc9814899
        blt     s2,t1,text.11b8
        .word   0xca76ff67
        bgeu    t4,a6,. + 474
        .word   0x3ae7caf,0x5631ca9f,0xc012c0ef
        li      s2,0x5ec2a000
        bgeu    t4,s6,text.262
        blt     s5,gp,text.133a
        .byte   84,56,223,0,151,101
text.c16:
        .byte   236,232
        .word   0x2569aa45,0x25f17fb3,0x5134151e,0x6bbd6a3c,0xfee2fd23,0x9bdcc7f3,0x103f3569,0x3f2457cd
        .word   0x43f89eed,0x65a4fe67,0xc92c3f0f
        sb      s6,-1209(a4)
        sw      t5,1686(t4)
        .word   0x8d0389dd,0x43476c0f,0x46f1f3c1,0xc0fd5b5,0x4d238065,0xcf9034ad,0xd26faa63
text.c68:
        .word   0x50c1e4a3
        lh      s11,-576(ra)
        .word   0x71359d55,0xcc8ef3a1,0x75983cf,0x6ae10436,0xe309ec73,0x969e5481,0xa12251bd
        auipc   s9,0x6cb13
        .word   0x3b9b5693,0xf949a98f
        auipc   s5,0xb8b72
        li      s2,0xc80a6000
        .word   0x55bdab5f,0x9d4f9a42,0x3842cbf3
        li      ra,0xa2a99000
        bgeu    tp,tp,text.d44
        .word   0xa34c40f,0x8638c26b,0x8fc9944,0x3343b7a3,0x3e3696af
        jal     a4,. + 824626
        andi    s7,t5,300
        .word   0x3001b923,0xf4965f1f,0x6d1e122f,0x5ee7c0f
        jal     a4,. - 91510
        .word   0x9ea90005,0x6eb65112,0x950ade0f,0xa59d0573,0x83a40773,0xf3b53254
        bge     tp,s10,. - 3672
        li      a0,0xf0993000
        .word   0x999775e7,0xe7bc5393
        addi    t5,a6,1843
        .byte   99,38,3,213,51,132,48,77,35,99
text.d1a:
        .byte   125,155
        lh      s2,1270(s8)
        .word   0xc82b9caf
        auipc   a3,0x3b6dc
        .word   0xb312bbaf,0xb23ef624,0x2513eab3,0xde357af,0xdf1ca14a
        blt     a7,ra,text.156a
        .word   0xbdf6c6b3
text.d44:
        .word   0x3d47823,0x96d4e1a7,0xd2f3b53f,0x35646533
        jal     t0,. + 120130
        .word   0x10f717f3,0x4b56813c,0x9b80fe83,0xf65f28f3,0x2ed80e5c,0xc1bb6967,0xa4096123,0x60c5a363
        .word   0xf9196a8f
        auipc   t6,0xf0b60
        auipc   a2,0x9b9c9
        .word   0xa1374af3,0x6509b2e7,0x26e85f9b,0x4c9bf327,0xe10f23f3
        li      a1,0xb4583000
        .word   0x7f771393,0x7fbdd18,0x6fdebbe3,0x7d5ca2e7,0x1c8c66a3,0xcf766ea3,0x6df5eaa3
        li      a7,0xc093b000
        .word   0x1d6e6967,0xbf76cf23
        auipc   sp,0x6fd06
        .word   0xde0b9e3
        addi    sp,sp,-1990
        .word   0x4ac4430a,0xfa7f335f,0x37def203,0x6c45e05b
        lhu     a5,-605(t4)
        .word   0x24b5a2f,0x552c92bd
        auipc   a3,0x9c8c7
        sw      zero,1943(s11)
        .word   0x94eafca3
        auipc   gp,0xe387d
        .word   0x64363d4c,0x3d145248,0xb3574c2f,0x53a1b583
        jal     s5,. - 851712
        .word   0x17fb3543
        sh      t5,875(a4)
        .word   0xe7db782c,0xf0d49ca,0xe0c80266,0x1014e6ca,0x266a1df3,0x494697ae
        li      s8,0xeed7000
        .word   0x33423aa2
        lw      s3,-1374(t3)
        .byte   115,96,206,51,243,236,173,29,209,53
text.e46:
        .byte   71,56
        .word   0xb6cbe1b3,0xdf032003,0xb953cd97,0x53655c37,0xc3b2cccf,0xa8d8a8f1,0x61e8303b
        auipc   s6,0x62f3d
        .word   0xd4fed542
        sltiu   a1,s5,-503
        auipc   a3,0x9adc7
        .word   0x12803301,0x6fc484db,0x8842c62f,0xc1375dde,0x68c50d2f
        li      a3,0x50de3000
        andi    a2,zero,-2002
        .word   0x4d6be2e7,0x20732aa5,0xb61e093d
        jal     s9,. + 785066
        .word   0x26f9050f
        auipc   s6,0xd00a2
        sltiu   a1,t6,1457
        .word   0x46fbfb30,0x4f4b2413,0x8cca96b7
        sltiu   a2,a5,-343
        j       . - 230670
        .word   0x2fd16e83
        auipc   sp,0xfc315
        .word   0xa643ce2f,0x81fba43e,0x5af51434
        jal     s0,. - 928638
        .word   0x5fe11b0f,0x2f442e47,0x85a75c6
        auipc   sp,0xe29fe
        sh      t6,226(a6)
        auipc   s3,0x53ba9
        .word   0x5c17eead,0x3b542ab3
        auipc   a0,0xb29e7
        .byte   60,116,222,24,35,194,6,57,143,96
text.f06:
        .byte   15,36
        blt     s5,s11,. + 1258
        .word   0xe6add02f,0x99ab1f99,0x8abbbadb,0xdcdaf77c,0x94b19e93,0x832fff68,0x320a220f
        ori     t5,s0,1134
        sh      gp,556(t0)
        .word   0x56d542f,0x2f172eaf
        jal     s9,. + 792912
        .word   0xb232e727
        jal     s2,. + 700772
        slti    s0,gp,804
        jal     s10,. - 284366
        .word   0xb4f19bde
        li      s7,0x4983000
        lbu     t4,-1835(a2)
        bltu    t6,t1,text.4fc
        .word   0x59790c0f,0x82dc49f3
        sh      a4,-260(s9)
        .byte   103,28,232,154,179,237,239,22,143,231,223,217,175,89
text.f76:
        .byte   193,253
        .word   0x4e0581d,0xe891592f,0x43331459,0x409d41ea,0xf3be7283,0x4b655523,0xc710233,0xed5dd623
        .word   0x5b411160,0xb8104de7
        jal     t2,. + 234624
        .word   0x2c20b0af
        blt     a5,gp,text.113c
        auipc   gp,0xbe953
        .word   0x6555847b,0x2669a118
        lhu     s11,-119(a6)
        .word   0xbafd788f
        beq     s4,s11,. - 1058
        li      s7,0x81d32000
        bltu    a6,a7,text.afe
        .word   0xcb8b5d73,0x7f46d833,0x8d7b7f57,0xd4a9efeb,0x2a5786af,0xd34845d,0x5e494e61
        jal     s2,. + 139008
        .word   0xa98d2f0f,0x711dd9d4
        ori     sp,s2,1462
        .word   0x7134750d,0xb897e21,0x913d1c13
        lb      gp,-1767(s5)
        jalr    sp,-1737(gp)
text.100c:
        ori     s8,s0,243
        .word   0x82714c33,0xfe5c53af
        xori    ra,a4,1073
text.101c:
        .word   0x54773573
        auipc   sp,0x9e024
        .word   0x8dec47f0
        bgeu    t1,t4,. + 1894
        .word   0x4fa3e7e7,0x81dd51f7,0x978feb91,0x34ec3c13,0xaea6032f,0x1e7adbf3
        andi    sp,s7,-1415
        .word   0x9e3defe2,0x730c559c
        auipc   s11,0x713e7
        .word   0xdd4920f
        addi    a6,a7,398
        li      a4,0x7181d000
        .word   0x72ee47e7
        jalr    a2,149(tp)
        .word   0x7330ff23
        sltiu   s5,t1,-358
        .word   0xd7869113,0xe0a1ce57
        jal     . - 890650
        .byte   94,22,159,16,175,98,210,140,243,136,12,113,115,51,5,26
        .byte   179,189,225,119,15,208,30,119,51,124,8,42,142,60,41,226
        .byte   254,250
text.109e:
        .byte   174,189
text.10a0:
        slti    t2,s4,-2026
        .word   0x59964812
        auipc   s5,0x9c6b8
        xori    s2,t2,-463
        .word   0x1a7899b3,0xd76132f,0x8f6b4423
        li      ra,0x65e53000
        .word   0xb77c2bf3,0xb65e1467
        sh      a7,1595(zero)
        xori    s11,s1,713
        .word   0x721e840f,0x89c1cdaf,0x50fc29da,0x7e883fab,0x8f1b1e21,0x574dece6
        li      s9,0x51dee000
        .word   0x52c29e33
        auipc   tp,0xd2e0f
        auipc   s7,0x2a846
        auipc   a1,0xdbdd9
        .word   0xd378636,0xe7c1cd03,0x540a3d83,0x5822f1e7,0x98643016,0xdf724ca3,0xe83714b3
        j       . - 593940
        .word   0xc60db633,0xa6bd2070,0xf5bc54e7,0xd6fd5c1b,0x3be135e7,0x51fc0473,0xdf0a47b3
        jal     a4,. + 208912
text.113c:
        .word   0x17df154c,0xf3b5b6e3,0xca75495e,0xfcb84e2f,0x24ed9e2f,0x8acce70f,0xf1c0d2b4
        auipc   a3,0xf92aa
        .word   0x31a634e3,0x2917e4ee,0x258dc267
        ori     s7,s2,-1958
        .word   0xd9849773,0xb3c79467
        sltiu   a1,a6,561
        li      s4,0x39ef2000
        jal     s10,. - 360070
        li      s5,0x16fa7000
        .word   0x90976dee,0x35839d93,0x47b1231f,0x593a0a89
        blt     a1,gp,. + 1578
        .byte   84,88,55,118,115,8
text.119e:
        .byte   22,184
        .word   0xe889c64a,0xb8f3b003,0x44583b62,0x307c648f,0xd03c39a3,0xdb65ad33
text.11b8:
        .word   0x54f47873,0xee306b36,0x85d19341
        andi    t3,t6,1977
        .word   0x6e617aaf,0xeeb0b5f2
        bne     ra,s5,. + 3730
        .word   0xec41200f
        lbu     a3,593(t1)
        li      t6,0x3db47000
        .word   0xc8d4ebe7
        bltu    s4,t1,text.1b82
        sw      t6,26(sp)
        auipc   s3,0x6a5aa
        .word   0xb1f8defa,0x5fd5e88f,0xc769bdf3
        ori     t5,s7,193
        .word   0xb0512cdd,0x5d32e42f,0x1e02a143,0x3ed50d8f,0x6fcf12ca,0xce212693
        li      tp,0x26848000
        .word   0xa34c140f,0xc00dc301,0xfaf0a58f
        beq     s0,tp,text.19b8
        jal     a1,. + 811404
        .word   0xb4f056d9
text.1234:
        .word   0xa4a69133,0x3de627d5,0x85fa3ff3,0x5135c18f,0x35ef3873,0x5e8b53af,0x1b0ff6a7
        jal     s8,. + 389922
        .word   0x9743a363,0x6e8cf7f0
        li      t2,0x3c065000
        .word   0x9c8210b3
        jal     t0,. - 276234
        lb      s8,167(a6)
        .word   0x46da2ba9
        sb      t2,1959(s0)
        .word   0xe8c42cfc
        bge     a3,t0,. + 3368
        beq     s10,a5,text.119e
        slti    gp,t1,224
        .word   0xbec2cfc2
        jalr    t0,1865(t4)
        jal     a7,. + 948970
        .word   0x65d64407
        jal     a7,. - 863574
        li      s4,0x8f598000
        .word   0xc083db23
        slti    s3,sp,70
        .word   0x7e59de02,0xe48890af,0x425928f8,0x4f2f2f6b
        xori    a2,s9,-1880
        xori    gp,a4,567
        lw      s11,-6(t6)
        .word   0x721ce967,0xe91632af,0x2008617c
        sb      s11,53(t6)
        .word   0x9f5cf175
        lhu     a4,-881(a3)
        .word   0xa5872d63,0xb1039233,0x1caee42f,0x9afe7673
        li      tp,0xb036b000
        blt     s10,s6,text.1c60
        jal     a3,. + 1015166
        lhu     s4,178(t4)
        .word   0x9dfcba03,0x1e06e6a3,0xc0c408a9
        auipc   zero,0x29724
        bltu    a6,s9,text.8d6
        .word   0x5a569c28
        sh      s2,-646(t0)
        .byte   231,157,81,157,231,70,243,207,131,101,205,67,35,251,142,110
        .byte   179,223,236,215,250,184,43,215,111,86,109,47,126,75,183,8
        .byte   202,190,38,251,133,198
text.133a:
        .byte   237,109
        .word   0x6a1f192f,0x82fad2a1
        auipc   t6,0xfd8aa
        .word   0x3abdcf22
        li      t5,0xf313000
        .word   0x5266ac89,0x38142f73,0xe432817a
        li      a0,0x855d2000
        .word   0xaf49b138,0xee031eb1,0x7865a3,0xc6ca728d,0x4a89dfb2
        andi    a7,t5,-418
        jal     a5,. - 638200
        .word   0x8f608be,0x61eef303
        li      s3,0x21bc4000
        sw      s3,-1460(s6)
        auipc   sp,0xb3870
        auipc   a5,0x8419f
        .word   0x3e138a8f,0x2d831173,0xa4a75a93,0xa26f3840,0x6ee67833,0xd6519b1a
        slti    a4,s9,-1534
        .word   0x6cff3ca3
        jal     t6,. + 888374
        .word   0x186ac023
        sb      s1,1967(gp)
        .byte   14,168,59,130,147,209,73,27,28,180,171,143,111,218,55,200
        .byte   227,111,238,230,87,215,57,169,129,237,216,24,15,42
text.13de:
        .byte   69,116
        .word   0x48ba318f,0x6805f8ca,0x61643667
        bltu    gp,zero,text.f76
        auipc   a1,0xf872d
        .word   0x82676503
        auipc   s7,0x69196
        li      a0,0xac39b000
        lh      a6,343(t1)
text.1404:
        .word   0x58fd1ec1
        lw      a6,279(t6)
        .word   0x95ae53a3,0x173c7be7
        bgeu    s3,s8,. + 3490
        .word   0xdb31f2de
        bltu    s9,s5,text.a44
        auipc   gp,0x3ffa0
        .word   0xfcff9af3,0x37bac7a3,0xd4da0273
        jal     s10,. + 165076
        j       . + 837554
        auipc   s9,0xc8f01
        sb      t1,-570(t3)
        slti    t1,gp,1633
        .word   0xd083ea67,0x12f2ec73
        li      a1,0x3605c000
        .word   0x374c228f,0xb35feee1,0xc59b026f
        jal     s3,. + 529570
        .word   0x7222ca8f,0x12094618,0x1eac5173
        lw      sp,-705(s2)
        .word   0x99d8886c,0x754a0b0f
text.1478:
        sh      s3,798(s1)
        .word   0x36d47123,0xe89f1b2f
        lhu     s9,1088(t0)
        li      a7,0xdfddf000
text.148c:
        .word   0xada09af,0x73c0668f,0x3f235d8f
        jal     a6,. + 840470
        .word   0xe7f1cf67,0xafa07a1a,0xf95d58f3
        li      a3,0x75d1000
        .word   0x2c40b580,0xf30f3f6b
        lw      t0,917(a2)
        .word   0xdf0b6be7,0x15af3b23,0x31e12de3,0x479b2ae3,0x62ad590e
        li      a0,0x87b40000
        li      a4,0x4768f000
        .word   0x901262e7
        blt     sp,s5,. + 2892
        jal     a3,. + 678098
        .word   0x250eecb3,0xa7574f9,0xba6948ad,0x798a5d2c,0xe10ae9e6
        addi    s9,s3,-827
        .word   0x8e2ca233
        lh      a6,-1867(a4)
        .word   0x37b4c9f3,0x615a8662
        jalr    s10,-371(s3)
        .word   0x4448a463,0xbd8edf93
        li      a0,0x3ada1000
        .word   0x2a29ecb3
        slti    s11,zero,-456
        .word   0xcd057083
        li      s4,0xb5470000
        auipc   zero,0xf4a97
        j       . - 435954
        jal     a2,. - 796938
        .word   0x67a01324,0x103e21e3
        jal     . + 989080
        .word   0x5e192067,0x3f81c608,0x716d38b3,0x5b199467,0x3a94de67
        jal     t1,. - 723496
        .word   0xde2862af,0x1360c3e7
        li      a4,0x7e7f3000
        jal     s9,. - 956824
        .byte   98,18
text.156a:
        .byte   160,195
        .word   0x3bf5a5e3,0x17603e6b,0xad407667,0x8623ca5f,0xd81c39e7,0x2ac7dea3
        auipc   s8,0xb74a7
        li      a1,0x7d408000
        .word   0x7176aab
        sw      s3,1044(a3)
        .word   0x6597daf
        ori     t4,sp,-1535
        .word   0x380a740f,0x2ba1be33,0xa301ae55
        jal     . - 700566
        .word   0x78d85d8f
text.15b0:
        .word   0x900ca78f,0xeed3f683,0x4cc4ea3
        li      a6,0x4f996000
        .word   0x9e2d8955,0x565f49af,0x3ccef498,0x39f4e3f3
        blez    a3,. + 2274
        xori    a0,s7,811
        .word   0x3b62e083
        li      s3,0x2c9a7000
        .word   0x89d463b4,0x86ced933,0x38dc751c
        li      t3,0x41dbe000
        .byte   74,249,88,48,89,24,240,154,227,55,170,96,47,233,17,109
        .byte   75,140,148,144,243,107,11,20,51,90,254,191,83,66,14,41
        .byte   225,233,65,130,147,155
text.1616:
        .byte   135,186
        .word   0x4467072a,0xbf93682f,0xefab0aae,0xdec005b3
        bne     t4,s4,. + 3200
        .word   0x8b71cce6,0xb76d0e94
        jal     s5,. + 867226
        .word   0x128df1b3,0x29136767
        ori     gp,s5,1033
        auipc   t3,0xd21b9
        lw      tp,622(s11)
        li      a6,0x2c2e2000
        .word   0x8c98c3a2,0x77e29bc3
        bltu    tp,a3,text.174e
        .word   0x78eba5e9,0xa44219e7,0x7015c3af
        jal     t2,. - 1022470
        auipc   s5,0x639a5
        .word   0xd149ee5b,0x8f9f6a33,0x6e6e1890,0xba62a63f,0x964bc093,0xdb64f22f
        jal     t5,. - 28808
        .word   0x97cf83c2,0x51637b13,0x25330272,0xea17b4eb,0x1d55acb7,0xf258af1d
text.16a4:
        jal     sp,. + 304572
        auipc   s4,0xb618b
        .word   0x4c8e5bf3,0x2367c633,0x7d397b03,0x883fce2f,0x3fb09eb3,0x7193fba3,0x6d17992f,0xecf33b2f
        .word   0x14c4e083
        bltu    a3,a4,text.b4c
        sltiu   t4,s7,-1054
        .word   0x1740ea83,0x2ef03573,0x75e7ade3
        jal     s2,. - 987090
        .word   0x4396c40f
        auipc   t4,0xb532c
        .word   0x1238bd4d,0x500d9c67,0x6cbf833,0xa32803af
        lb      t4,-938(t1)
        .word   0xb1c9b7af
        bge     a2,s11,text.850
        .word   0x50d58a7a,0xbaa34a38,0xb1c01af4
        jal     s6,. - 779340
        .word   0x72564b4d,0xb0b6cbb3,0x67fb8ac0,0xdb933a83,0x2f22376,0xc66ab333,0xc322d73b,0x2cf2b303
        .word   0x24a69fd5,0xceac1c73
        jal     a3,. - 800308
        .byte   109,102,139,42,19,14
text.174e:
        .byte   27,120
        .word   0x9530adcb
        jal     s3,. - 407162
        jal     gp,. + 34958
        .word   0x640b2767,0x697a6972,0x52f148b3,0x93d01341
        jal     t1,. - 524638
        jal     s2,. + 520706
        .word   0x143e7b67
        li      zero,0x6496e000
        jal     s1,. - 101462
        jal     t5,. - 760876
        .word   0xefa03ca3
        lb      s4,511(a1)
        jal     s11,. - 850042
        .word   0xec805e3a
        addi    s6,s7,437
        auipc   s4,0x77407
        .word   0xaa1608f,0xd086096a
        jal     t5,. - 828508
        .word   0x1d31e0b3,0x2583c9ac,0x1d3204b3,0xf99d92cf,0x9fc69db8
        li      s5,0x28c36000
        .word   0xe019ab32
        jalr    s4,-227(tp)
        .byte   34,169,230,101,219,219
text.17ce:
        .byte   151,202
        .word   0xab12a8e3
        jal     s2,. - 1014350
        .word   0xcefd0461,0xf4c9aa67,0x4c43fa0f,0x2b2069,0xc2dcdc1,0x8c7a49e7,0xf25cd46a,0x41229e0f
        .word   0xcff9bc02
        jal     s3,. + 351122
        beq     s5,s4,text.1478
        .word   0xe2b05b55,0x62b63f3,0x7241e433,0xcfc3fc23
        auipc   t6,0x1d249
        .word   0x54181067
        jalr    s1,577(zero)
        li      s1,0x1e74000
        .word   0x5bdc2bb3,0xab45f867,0x70a33303
        bgeu    sp,a6,text.109e
        auipc   a3,0x51960
        .word   0x3ab9d5f7
        sb      t6,984(a3)
        li      t4,0xdf0d3000
        .word   0xc5b18db3
        bgeu    t0,t3,text.c68
        .word   0xccad3a3c,0x199692b3
        jal     t2,. + 126586
        .word   0x708a9a01,0xaa96b1ca,0x3767d2a3,0x5d9e4407,0x539736a3,0x911f3a06,0x7f1cbb7,0xe6e4e133
        lw      a0,-1901(a2)
        .word   0xe8ca1de7
        auipc   t2,0xcc74b
        auipc   s6,0x4272d
        .word   0x12b4592f,0xb02d6a4f,0xc0b38dd1,0x3086eb83,0xeed246e7,0x546c7233,0x57d2a1dc,0xca0fc2b3
        .word   0xc1053c2f,0x9d00d933,0x3918e52f
        lw      gp,-931(s3)
        lw      s4,434(t4)
        auipc   s4,0x2bc9e
        .word   0xc5e49fde,0x70759b20
        lw      t4,1733(s11)
        .word   0x1169af73
        li      a6,0x9647b000
        .word   0xab8027c2
        jal     s0,. + 432102
        .word   0xebaf70f3
        jal     s9,. - 673140
        .word   0x4f0d8bc7,0xc7563523,0x4b022f0c,0x4047fcab,0x83a89513,0x6fb846af
        sh      t6,844(s11)
        .byte   189,70
text.1902:
        .byte   159,128
        .word   0x932307a3,0x43a13423,0xcca018dd,0xf961f933
        jal     t0,. - 149990
        .word   0xd53dac3e,0xb88865b3
        auipc   s11,0xa211
        .word   0xf8b60bd3,0xd14b7a3,0xa478e8f,0xf4af9bf3,0x52edf883,0x5829abaf,0x84e53973,0x3da77b83
        li      t5,0x55bd5000
        .byte   115,86,172,6,141,103,241,71,191,53,234,157,185,223,34,218
        .byte   131,60
text.195a:
        .byte   15,74
        bltu    s1,t6,. + 2206
        .word   0xaf261175,0x1c884eb3,0xfcda7e3c,0xffb9bf33,0x967edee7
        jal     s4,. + 181056
        jal     s0,. + 270700
        .word   0x6795e085,0x2de94b6a
        li      sp,0x3c465000
        j       . - 39458
        auipc   t5,0x6b45d
        .word   0x4172179e,0x482b8d8f
        li      a6,0x2e04f000
        .word   0xb1bddd8f,0x4c1bf1fc,0x7a2b11a3,0x8c7ea483
        lhu     t4,-1340(a2)
        .word   0x9131e903,0xba078f0f
text.19b8:
        .word   0x41be8273,0x332df2f3,0xae309133,0x87e0f903
        auipc   a6,0x38667
        .word   0xae9ce283,0x8718f7e7,0xcc48d73b,0xd6c28b73,0xead97a3a
        slti    s10,s0,-1421
        li      t2,0x38da3000
        jal     a6,. - 67422
        bltu    t1,sp,text.148c
        .word   0x98886033,0x3f561067,0x41fdc501
        jal     sp,. - 498842
        .word   0x4416a2f3
        auipc   t0,0x4688d
        .word   0xc5d610b3,0x897f4f0f,0x37f577f3
        jal     s7,. + 204070
        auipc   s2,0xa52e8
        auipc   a6,0x634c5
        .word   0xa29db183
        slti    s7,s4,-951
        .word   0xb8370eb3,0x4d25c859,0x5dd64aaf
        sb      zero,-1552(t5)
        .word   0xccd58a36,0x7bba26e7,0x5b493f83
        li      s1,0x127ee000
        sw      s4,844(s6)
        lb      s7,164(t4)
        .word   0xd463cd67,0x7ed21dbd,0xd0cb5ee6,0x6e6e102f
        li      a0,0xeec91000
        .word   0xc2993233,0xdcaa5f8f,0x14b5c6ba,0x293c3254,0xe9f9bfb3,0xb48f6d33
        auipc   s2,0xd4bb
        .word   0x1cd8e384,0xdbe933b3
        auipc   a6,0x2c431
        .word   0x9e8e5aaf
        xori    t6,s3,1323
        li      ra,0x60df5000
        .word   0x9031086b
        jal     s2,. + 104600
        .word   0x3ffebfde
        beq     a5,s1,. + 2558
        sh      s5,49(a7)
        .word   0xd4f90d69,0xdee53c8
        slti    s9,tp,-1407
        .word   0x113f2d9c,0x96e4b313,0x12acfdc8,0xec17dec7,0x9a1eac33,0x8a83980a,0x2c517537
        jal     t1,. + 443362
        auipc   zero,0x26d1c
        .word   0x9c319e13,0x8c5ed00f
        auipc   ra,0xfdd8e
        .word   0xdabdd82f,0xfd5837e3,0x475db267
        bge     t4,gp,. + 3968
        blt     t1,a3,text.119e
        auipc   s5,0x38819
        .word   0x8dccb4b3
        auipc   t3,0xbdd7c
        .word   0x719a3333,0x5522d313,0xd656aff,0xc7bff35,0xdcec4693,0xa9cacc3a,0x92ab9a93,0x7515c7b7
        auipc   s9,0x89348
        .word   0x2081cda3,0x1b167dd1,0x168be233,0x8315e0a3,0x7e00a5f4,0x602bf173
        sh      s10,200(s11)
        lw      s8,-1551(ra)
        .word   0xffc6a9ad
        jal     t2,. + 625972
        lh      s9,431(tp)
        slti    sp,zero,-1070
        .word   0xeec1b37d
        li      s6,0x83b02000
        .word   0x5e6b4ab3,0x75d7323,0x980bde33,0xf6773803
        jal     a2,. - 122636
        .byte   175,214,59,226,79,100,39,9,115,171
text.1b82:
        .byte   70,233
        sltiu   t3,ra,731
        .word   0x406aac32,0x61ca2e63,0x1f996733
        auipc   t6,0xd6ac6
        auipc   t6,0x9a2f
        auipc   t4,0xf68c5
        bgeu    a7,s3,. + 2728
        jal     t4,. - 938080
        li      t3,0xb22fd000
        .word   0xd3687995
        bgeu    s10,s10,text.100c
        .word   0x3c37fa68,0xe8232f0f,0xf82a45be
        lb      sp,-36(s10)
        bne     a4,s8,. - 3594
        .word   0xa686a0e3
        slti    ra,a6,329
        .word   0xd18cb173
        jal     t0,. - 248178
        jal     sp,. - 635160
        .word   0x73b5c8d6,0x30c4a639,0x76af905c,0x15ff95be,0x5da9fd97,0x959dd5ef,0x1ea0cb3,0x4e83743c
        .word   0x4c9709c6,0xf004a1f3,0x5478ed04,0x363a6f91,0xd0ba4d2,0xb50e7a37,0x53033190,0x9677b67
        .word   0x86820cf3,0x45827dd4
        lbu     s6,-1156(s2)
        .word   0x21498f71
        li      a5,0x69ce6000
        .word   0x9fe4023
        auipc   t6,0xb13c2
        .word   0x3abaeeb3
        lhu     s2,-1774(a6)
        li      sp,0xce4b4000
        .word   0xb5672a0b,0xf055902f,0x13dc0359,0xfbdb7314,0x3f5b16e3,0x27832283,0x66a8d4f3
text.1c60:
        .word   0xbb5ed5f8,0x31be9be7,0xe2a94c8f,0x20901b1c
        sb      s0,-1652(t6)
        andi    tp,s3,1443
        .word   0xb356eab2,0x105288e6,0xf12bda96,0xb6ce00ef,0x2238872f,0xc8a5f723,0xe2743fa3,0x20aeff3
        lhu     t2,-619(s10)
        .word   0xc8aedf67
        jal     s4,. - 383018
        .word   0x3ed5e133,0xce01bbb9,0x9de2f8f8
        jalr    a3,911(a0)
        auipc   s11,0x46dc0
        .word   0x29596caf,0xfd7abe0f,0xeea81514,0x8e64beaf
        li      s1,0xcb941000
        .word   0xcaecbcdd,0x1533ae2f,0xf16c90fb,0x2e5c0aaf
        li      t6,0xdbd42000
        li      s8,0x9c53c000
        .word   0x6e6ffa8f,0xaa7c5daf,0x645d8631
        beq     tp,a4,text.e46
        .word   0x9ee13f8f,0x30b1877a
        li      s10,0x58feb000
        li      s5,0x58b9f000
        sh      tp,1345(s8)
        jal     tp,. + 976530
        .word   0x23d308f3
        sltiu   zero,s8,-2012
        .word   0xd7fa6b83
        sh      a3,-5(s10)
        andi    t5,a7,-1483
        li      s3,0xb4d23000
        .word   0x91e35171,0xee407003,0x24117b2f,0x80c7e1b3,0xe7188533,0x213d0173
        li      s3,0x82477000
        .word   0x100a4c2f
        lhu     a0,-1917(a3)
        lhu     t3,-1204(t3)
        .word   0x58d9f8f3,0x86e321b3
        auipc   s2,0x8eeef
        bne     t2,gp,. + 2060
        .word   0x885ea477,0xa7d7bee3,0x171acdb2
        auipc   zero,0x246ca
        .word   0x5c5c3c73,0x23463a33
        lh      s1,1456(a7)
        jal     gp,. - 352058
        jal     sp,. + 118612
        .word   0x5080f923,0xacce90d3,0xdcf505b3,0x7b83218f,0x95c551fd,0xa69eb20f,0x6c8a3e0f
        li      t2,0xa17be000
        auipc   a6,0xe9d84
        .word   0xf7ccc323,0x4924a114
        jalr    sp,1905(zero)
        .word   0xb6c10173,0x767c64f3
        sb      t5,123(a1)
        .word   0xb8d9d732,0x7309e9a3,0xd095d398,0xfe6fc5e7,0xec66c333,0xd80259e5
        li      s8,0x76897000
        li      s1,0x39ba000
        .word   0x7e550bd5,0xdae1908f,0x97db9a78,0xab860258,0x36ccd533,0x370a8273,0xd51374f3,0xaee98a2f
        .word   0x868edc8f,0xe529da13
        auipc   a4,0xb821
        .word   0xc276a7f3,0x771fefa3
        lh      s8,1232(s7)
        jal     t0,. - 873648
        .word   0xac9104b3
        auipc   zero,0xb636f
        .word   0xc48407b5,0x340c9767
        sh      t2,-427(t2)
        .word   0xfb8fd4b3
        li      sp,0x48d7c000
        .word   0x10d9e02f,0x729e34ca,0xad5cad29,0x84d5ad6b,0xe3d9ddeb,0x825048b2,0x51f9d193,0x411bcacd
        .word   0xd2fd1c83
        auipc   a4,0xac838
        andi    s6,ra,557
        .word   0x77fe4633,0xcb9d19a1,0x384ac0b3
        slti    t0,tp,1099
        .word   0x1ec328e8,0x481c2109
        blt     a6,a6,. + 3290
        jal     a2,. + 635130
        andi    ra,ra,609
        .word   0x84b3c8b3,0x1c65007c
        sb      t4,1447(t0)
        .word   0x93767ea,0x4e65eb80
        bltz    t5,. + 134
        .word   0xa0a92ef3
        sh      ra,1128(s5)
        .word   0xfc1fa4e3,0xd11b55f3
        xori    sp,t4,145
        li      a3,0x623a6000
        .word   0x2adc39a3,0x4839967
        blt     t1,s10,text.17ce
        lb      a1,-712(zero)
        .word   0xcebd7833,0x1b305f67,0x91caccb3
        auipc   s11,0x16e18
        .word   0x5a9505b3,0x78d80c5a
        lbu     s5,1307(a4)
        sh      s0,542(s6)
        .word   0x6ead1a8f,0x6a8b2463,0x4b8dd1b9,0xd52459c,0x6c7882af,0xcfd1711c
        li      t3,0xd5315000
        .word   0x1530b80f
        jal     s8,. - 331398
        .word   0x19cff8f3,0x34199893,0xdf07650f,0x35684fbb,0x4b108c8f
        bgeu    s10,s9,. + 4062
        bgeu    t3,t3,. + 1798
        li      a2,0xc5081000
        jal     . - 860944
        .word   0xeef58acd
        addi    t6,a2,1
        auipc   a2,0xa6d04
        .word   0xdbc38a39,0xb18c8637
