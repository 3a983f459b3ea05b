#version 450
layout(local_size_x = 1) in;

layout(set = 0, binding = 0, std430) buffer B { uint below; uint found[]; };

bool is_prime(uint n) {
  for (uint d = 2u; d * d <= n; d++) {
    if (n % d == 0u) return false;
  }
  return n > 1u;
}

void main() {
  int count = 0;
  for (uint n = 0u; n < below && count < found.length(); n++) {
    if (is_prime(n)) found[count++] = n;
  }
}
