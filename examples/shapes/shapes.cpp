// Areas of shapes, in units of a tenth, summed over a list.
struct Shape {
  virtual long area() const = 0;
  virtual bool has_corners() const { return true; }
};

struct Square final : Shape {
  long side;
  constexpr explicit Square(long side) : side(side) {}
  long area() const override { return 10 * side * side; }
};

struct Circle final : Shape {
  long radius;
  constexpr explicit Circle(long radius) : radius(radius) {}
  long area() const override { return 31 * radius * radius; }
  bool has_corners() const override { return false; }
};

static Square small(1), large(4);
static Circle round(2);
static const Shape *const shapes[] = {&small, &round, &large};

__attribute__((noinline)) long total(const Shape *const *from, unsigned count) {
  long sum = 0;
  for (unsigned at = 0; at < count; ++at)
    if (from[at]->has_corners())
      sum += from[at]->area();
  return sum;
}

int main() { return static_cast<int>(total(shapes, 3)); }
