#version 450 core
#extension GL_ARB_separate_shader_objects : enable
  # /* a comment */ include <common.glsl> // with more
#
#define PASTE(a, b,) a ## b ## "q" <<= 1.5e+3
#undef PASTE
#if defined(A) && \
    B
#elif 0
#ifdef A
#ifndef B
#else
#endif
#line 10 "name"
#error any words & <b>more</b>
#pragma optimize(on)
#(a group
#version)
def\
ine /* two
lines */ void main() { x ^^= y; }
