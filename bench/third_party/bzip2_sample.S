        .section .rodata
        .globl  sample_text, sample_text_end, sample_packed, sample_packed_end
sample_text:
        .incbin "sample1.ref"
sample_text_end:
sample_packed:
        .incbin "sample1.bz2"
sample_packed_end:
