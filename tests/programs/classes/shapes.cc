#include "shapes.h"
#include <new>
#include <stdio.h>

Shape::~Shape() {}

int Square::area() const { return side * side; }

Pile::Pile(int room) : shapes(new Shape *[room]), count(0), room(room) { puts("a pile is made"); }

Pile::~Pile() {
    for (int i = 0; i < count; i++) delete shapes[i];
    delete[] shapes;
    puts("a pile is gone");
}

void Pile::add(Shape *shape) {
    if (count < room) shapes[count++] = shape;
}

int Pile::area() const {
    int sum = 0;
    for (int i = 0; i < count; i++) sum += shapes[i]->area();
    return sum;
}

Pile &shared_pile() {
    static Pile pile(32);
    return pile;
}
