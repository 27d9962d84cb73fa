#version core
#defin LAYERS 4
#ifdef ANTIALIAS 2
float width = 0.5;
#endif
#extension GL_ARB_shading_language_packing enable
#define INSIDE(depth, 0) ((depth) < 0.0)
#undef
float lit = 1.0;
#(
void main() {}
