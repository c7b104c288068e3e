// fluent.h read as C++.
#include "fluent.h"

int main() {
    fluent_bundle bundle = FLUENT_CLOSED;
    fluent_close(&bundle);
}
