# A boot sector that shows the average of a sensor's samples. The sensor answers at three ports: 70h its status, of which bit 0 says
# that samples are there, 71h their sum, and 72h how many there are.
#
#     gcc -c -m32 sensor.S -o sensor.o && objcopy -O binary -j .text sensor.o sensor.img
#
# The firmware loads the sector at 0000:7C00 and jumps there.

        .code16
        .text

start:  xorw    %bx, %bx
        inb     $0x70, %al              # the first look, which only wakes the sensor
        inb     $0x70, %al
        movb    %al, 0x7c00 + status - start
        inb     $0x71, %al
        movzbw  %al, %bx                # the sum
        inb     $0x72, %al
        movb    %al, %cl                # how many
        movw    %bx, %ax
        divb    %cl
        movb    %al, 0x7c00 + average - start
        hlt

status: .byte   0
average:
        .byte   0

        .org    510
        .byte   0x55, 0xaa              # what makes it a boot sector
