# SPDX-License-Identifier: Apache-2.0 OR MIT
# Firmware of 64 KB in the place of QEMU's: it sets the 8254, the MC146818 and the local APIC's timer, and then reads them for ever. The
# names KVM, LVT, DIVIDE, INITIAL, CONTROL and COUNT are given when it is assembled. It is in real mode, in which a guest of KVM needs no
# paging.
#
# Each line that it writes to port E9h has hexadecimal numbers of 32 bits: for each clock the moment before and after the reading, and
# what was read: counter 0, counter 2, second, register C, current count, the low half of the TSC. With KVM=0 a moment is the HPET's
# counter, and the local APIC is in memory, for which a segment has 4 GB. With KVM=1 it is the low half of the TSC, and the local APIC is
# reached by MSRs; a line goes on with the TSC, low half first, and the eight words of the page of MSR 4B564D01h.
        .code16
        .set HPET, 0xfed00000
        .set APIC, 0xfee00000
        .set PAGE, 0x5000
        .set LINEFEED, 10

        .macro moment register
        .if KVM
        rdtsc
        movl %eax, \register
        .else
        movl %fs:0xf0(%edi), \register
        .endif
        .endm

# Reads a clock by a piece of code that leaves it in EBP.
        .macro sample reader
        moment %ebx
        call \reader
        moment %ecx
        call write_sample
        .endm

# Writes a register of the local APIC.
        .macro local place, value
        .if KVM
        movl $(0x800 + \place / 16), %ecx
        movl $\value, %eax
        xorl %edx, %edx
        wrmsr
        .else
        movl $\value, %fs:\place(%esi)
        .endif
        .endm

start:  cli
        xorw %ax, %ax
        movw %ax, %ds
        movw %ax, %ss
        movw $0x7000, %sp
        .if KVM
        movl $0x1b, %ecx
        rdmsr
        orl $0xc00, %eax
        wrmsr
        movl $0x4b564d01, %ecx
        movl $(PAGE + 1), %eax
        xorl %edx, %edx
        wrmsr
        .else
        lgdtl %cs:(gdtr - start)
        movl %cr0, %eax
        orb $1, %al
        movl %eax, %cr0
        movw $8, %bx
        movw %bx, %fs
        andb $0xfe, %al
        movl %eax, %cr0
        movl $HPET, %edi
        movl $APIC, %esi
        movl $1, %fs:0x10(%edi)
        .endif
        movw %cs:(ports - start), %cx
        movw $(ports - start + 2), %bp
set:    movb %cs:(%bp), %dl
        movb %cs:1(%bp), %al
        xorb %dh, %dh
        outb %al, %dx
        addw $2, %bp
        loop set
        local 0xf0, 0x1ff
        local 0x320, LVT
        local 0x3e0, DIVIDE
        local 0x380, INITIAL

again:  sample read_counter_0
        sample read_counter_2
        sample read_second
        sample read_c
        sample read_current
        sample read_tsc
        .if KVM
        rdtsc
        movl %edx, %ebp
        movl %eax, %ebx
        call write
        movl %ebp, %ebx
        call write
        movw $PAGE, %si
words:  movl (%si), %ebx
        call write
        addw $4, %si
        cmpw $(PAGE + 32), %si
        jne words
        .endif
        movb $LINEFEED, %al
        outb %al, $0xe9
        jmp again

read_counter_0:
        xorb %al, %al
        outb %al, $0x43
        inb $0x40, %al
        movb %al, %dl
        inb $0x40, %al
        jmp both
read_counter_2:
        movb $0x80, %al
        outb %al, $0x43
        inb $0x42, %al
        movb %al, %dl
        inb $0x42, %al
both:   movb %al, %dh
        movzwl %dx, %ebp
        ret
read_second:
        xorb %al, %al
        jmp byte
read_c: movb $0x0c, %al
byte:   outb %al, $0x70
        inb $0x71, %al
        movzbl %al, %ebp
        ret
read_current:
        .if KVM
        movl $0x839, %ecx
        rdmsr
        movl %eax, %ebp
        .else
        movl %fs:0x390(%esi), %ebp
        .endif
        ret
read_tsc:
        rdtsc
        movl %eax, %ebp
        ret

write_sample:
        call write
        movl %ecx, %ebx
        call write
        movl %ebp, %ebx
# Writes EBX as eight digits and a space.
write:  pushw %cx
        movw $8, %cx
digit:  roll $4, %ebx
        movb %bl, %al
        andb $15, %al
        addb $48, %al
        cmpb $58, %al
        jb 1f
        addb $39, %al
1:      outb %al, $0xe9
        loop digit
        movb $32, %al
        outb %al, $0xe9
        popw %cx
        ret

# Ports and bytes: counter 0 in mode 2 by 11932, counter 2 by CONTROL and COUNT, binary time, and periodic events each half second.
ports:  .word (end - ports - 2) / 2
        .byte 0x61, 0x01, 0x43, 0x34, 0x40, 0x9c, 0x40, 0x2e, 0x43, CONTROL, 0x42, COUNT & 255, 0x42, COUNT >> 8
        .byte 0x70, 0x0a, 0x71, 0x2f, 0x70, 0x0b, 0x71, 0x46
end:    .balign 8
gdt:    .quad 0
        .quad 0x00cf92000000ffff
gdtr:   .word 15
        .long 0xf0000 + gdt - start
        .org 0xfff0
        ljmp $0xf000, $0
        .org 0x10000
