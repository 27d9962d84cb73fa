#version450core
#define LIT1.0
#define LAYERS(4)
 #ifdefANTIALIAS
#undef ANTIALIAS
#endif
layout(location = 0) outvec4 mask; // a commentkeeps its own
void main() {
mask = vec4(LIT/float(LAYERS));
}
