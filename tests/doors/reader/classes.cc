// classes.cc - C++ classes whose sizes and data members a struct of C can represent.
#include <map>
#include <memory>
#include <string>
#include <vector>
namespace shapes {
struct Empty {};
class Base { public: virtual ~Base(); int number; private: char tail; };
class Derived : public Base, private Empty { char in_tail; double value; static int shared; public: int area() const; };
struct Diamond : virtual Base { int own; };
template <typename T, int N> struct Box { T items[N]; Box *next; enum class State : short { Open, Shut } state; };
namespace { struct Hidden { unsigned bits : 5, more : 27; bool is_it : 1; }; }
union Either { int i; Box<char, 3> box; };
struct Outer { struct Inner { int deep; typedef long Count; }; Inner inner; Inner::Count count; struct Later; Later *later; int Inner::*member; int (Base::*call)(int); int &reference; Box<Inner, 2> &&moved; decltype(nullptr) null; };
struct Outer::Later { int told; Hidden hidden; };
}
using Alias = shapes::Box<shapes::Derived, 4>;
Alias alias; shapes::Outer *outer; shapes::Diamond *diamond; shapes::Either either; shapes::Outer::Later later;
extern "C" { struct plain { int a; struct plain *next; }; struct plain plain_object; int counted(struct plain *p) { return p->a; } }
std::map<std::string, std::vector<int>> table;
std::unique_ptr<shapes::Base> base;
int shapes::Derived::shared; int shapes::Derived::area() const { return number + shared; }
shapes::Base::~Base() {}
union Nameless { struct { struct Inside { short first; } inside; } unnamed; int other; } nameless;
int main() { auto lambda = [&](int x) { struct Local { int here; } local{x}; return local.here + either.i; }; return lambda(3) + (alias.next != nullptr); }
