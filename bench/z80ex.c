// Runs a .COM file on the Z80 of libz80ex until it returns to address 0, and prints how many steps it took.

#include <stdio.h>
#include <z80ex/z80ex.h>

static Z80EX_BYTE memory[65536];

static Z80EX_BYTE load(Z80EX_CONTEXT *cpu, Z80EX_WORD address, int is_opcode, void *none) {
    return memory[address];
}

static void store(Z80EX_CONTEXT *cpu, Z80EX_WORD address, Z80EX_BYTE value, void *none) {
    memory[address] = value;
}

static Z80EX_BYTE in(Z80EX_CONTEXT *cpu, Z80EX_WORD port, void *none) {
    return 0xFF;
}

static void out(Z80EX_CONTEXT *cpu, Z80EX_WORD port, Z80EX_BYTE value, void *none) {
}

static Z80EX_BYTE vector(Z80EX_CONTEXT *cpu, void *none) {
    return 0xFF;
}

int main(int count, char **words) {
    FILE *file = count == 2 ? fopen(words[1], "rb") : NULL;
    if (!file || fread(memory + 0x100, 1, 0xDF00, file) == 0) {
        return 2;
    }
    // The return address on the stack is 0, as for a program that CP/M starts. A HALT there ends the loop.
    memory[0] = 0x76;
    Z80EX_CONTEXT *cpu = z80ex_create(load, NULL, store, NULL, in, NULL, out, NULL, vector, NULL);
    z80ex_set_reg(cpu, regSP, 0xE000);
    z80ex_set_reg(cpu, regPC, 0x100);
    unsigned long steps = 0;
    while (!z80ex_doing_halt(cpu)) {
        z80ex_step(cpu);
        steps++;
    }
    printf("%lu\n", steps);
    return 0;
}
