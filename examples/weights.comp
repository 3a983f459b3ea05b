#version 450
layout(local_size_x = 1) in;

layout(set = 0, binding = 0, std430) buffer B { int x0; int x1; int x2; int s; };
void main() { s = x0 + x1 + x1 + x2 + x2 + x2 + 2147483647 + 1; }
