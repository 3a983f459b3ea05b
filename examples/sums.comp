#version 450
layout(local_size_x = 1) in;

layout(set = 0, binding = 0, std430) buffer B { int a; int b; };
void main() { a = b + 1; }
