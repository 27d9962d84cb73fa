#version core
#defin LAYERS 4
	#ifdef 中文 é	2
#else "a
b" // extra tokens on two lines
#define F(a, 0) (a)
#undef
foo @
#extension GL_ARB_shading_language_packing enable
#define F(a, b
#undef