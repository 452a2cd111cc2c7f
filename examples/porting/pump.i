program pump ("P=LAB:PUMP")
%%#include <string.h>
int level; assign level to "{P}:LEVEL"; monitor level;
int motor; assign motor to "{P}:MOTOR";
ss drain {
    state rests {
        when (level > 90) { motor = 1; pvPut(motor, SYNC); } state runs
    }
    state runs {
        when (level < 10) { motor = !1; pvPut(motor); } state rests
    }
}
