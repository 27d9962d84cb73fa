#version 450
#define LIT 1.0
float mask = LIT;
