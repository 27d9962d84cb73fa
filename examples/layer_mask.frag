#version 450 core
#extension GL_ARB_shading_language_packing : enable

// The mask of one layer of a print: how strongly each pixel of the panel is lit.
#ifndef LAYER_HEIGHT
#define LAYER_HEIGHT 0.05 // millimetres
#endif
#define INSIDE(depth) ((depth) < 0.0)
#define SAMPLE(axis) offset_ ## axis

layout(location = 0) in vec3 position;
layout(location = 0) out vec4 mask;

layout(binding = 0) uniform sampler3D part;
uniform int layer;
uniform float exposure;

/* The distance to the surface of the part,
   below zero inside it. */
float surface(vec3 at) { return texture(part, at).r; }

void main() {
    float offset_z = (float(layer) + 0.5) * LAYER_HEIGHT;
    float depth = surface(vec3(position.xy, SAMPLE(z)));
#if defined(ANTIALIAS) && ANTIALIAS > 1
    float width = fwidth(depth) * float(ANTIALIAS) \
                  * 0.5;
    float lit = 1.0 - smoothstep(-width, width, depth);
#else
    float lit = INSIDE(depth) ? 1.0 : 0.0;
#endif
    mask = vec4(vec3(lit * exposure), 1.0);
}
