#pragma once

class Shape {
public:
    virtual int area() const = 0;
    virtual ~Shape();
};

class Square : public Shape {
    int side;

public:
    explicit Square(int side) : side(side) {}
    int area() const override;
};

class Pile {
    Shape **shapes;
    int count, room;

public:
    explicit Pile(int room);
    ~Pile();
    Pile(const Pile &) = delete;
    Pile &operator=(const Pile &) = delete;
    void add(Shape *shape);
    int area() const;
};

Pile &shared_pile();
