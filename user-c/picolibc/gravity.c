/* gravity [STEPS]: five bodies that attract each other. Doubles, mathematics, and their printed forms. */
#include <math.h>
#include <stdio.h>
#include <stdlib.h>

#define BODIES 5
#define STEP   0.001

struct body { double place[3], speed[3], mass; };

static struct body bodies[BODIES];

static void begin(void)
{
    for (int n = 0; n < BODIES; n++) {
        bodies[n].mass = 1.0 / (n + 1);
        for (int axis = 0; axis < 3; axis++) {
            bodies[n].place[axis] = cos(n * 2.4 + axis) * (n + 1);
            bodies[n].speed[axis] = sin(n + axis * 1.7) * 0.1;
        }
    }
}

static void attract(struct body *one, const struct body *other)
{
    double distance[3], square = 0.01;
    for (int axis = 0; axis < 3; axis++) {
        distance[axis] = other->place[axis] - one->place[axis];
        square += distance[axis] * distance[axis];
    }
    for (int axis = 0; axis < 3; axis++)
        one->speed[axis] += STEP * other->mass * distance[axis] / (square * sqrt(square));
}

static void step(void)
{
    for (int n = 0; n < BODIES; n++)
        for (int other = 0; other < BODIES; other++)
            if (other != n)
                attract(&bodies[n], &bodies[other]);
    for (int n = 0; n < BODIES; n++)
        for (int axis = 0; axis < 3; axis++)
            bodies[n].place[axis] += STEP * bodies[n].speed[axis];
}

int main(int argc, char *argv[])
{
    int steps = argc > 1 ? atoi(argv[1]) : 100;
    begin();
    while (steps-- > 0)
        step();
    for (int n = 0; n < BODIES; n++) {
        const double *place = bodies[n].place;
        printf("%d %.9f %.9f %12.4e %g\n", n, place[0], place[1], place[2], bodies[n].mass);
    }
    return 0;
}
