#!/usr/bin/env python3
"""Writes one AES round in Verilog: 16 S-boxes as tables, ShiftRows, MixColumns, round key."""


def times(a, b):
    """The product in the field of AES."""
    product = 0
    while b:
        if b & 1:
            product ^= a
        a = (a << 1) ^ (0x11B if a & 0x80 else 0)
        b >>= 1
    return product


INVERSE = [0] + [next(y for y in range(256) if times(x, y) == 1) for x in range(1, 256)]


def box(x):
    b, byte = INVERSE[x], 0x63
    for k in range(5):
        byte ^= ((b << k) | (b >> (8 - k))) & 0xFF
    return byte


print("""// One AES round a cycle: 16 S-boxes, ShiftRows, MixColumns, round key; state in registers.
module aes(input clk, input load, input last, input [127:0] in, input [127:0] key,
           output [127:0] out);
 reg [127:0] s; assign out = s;
 function [7:0] sb(input [7:0] x); case (x)""")
for x in range(256):
    print(f"  8'd{x}: sb = 8'd{box(x)};")
print(""" endcase endfunction
 function [7:0] x2(input [7:0] x); x2 = {x[6:0],1'b0} ^ (x[7] ? 8'h1b : 8'h0); endfunction
 wire [127:0] t, m;""")
for i in range(16):
    row, column = i % 4, i // 4
    j = 4 * ((column + row) % 4) + row
    print(f" assign t[{8 * i}+:8] = sb(s[{8 * j}+:8]);")
for column in range(4):
    for row in range(4):
        a = [f"t[{8 * (4 * column + (row + k) % 4)}+:8]" for k in range(4)]
        into = f"m[{8 * (4 * column + row)}+:8]"
        print(f" assign {into} = x2({a[0]}) ^ x2({a[1]}) ^ {a[1]} ^ {a[2]} ^ {a[3]};")
print(""" always @(posedge clk) s <= load ? in ^ key : (last ? t : m) ^ key;
endmodule""")
