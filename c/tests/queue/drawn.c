#define OF_QUEUE
#include "../drawn.c"
