#include "scene.h"

int main(void)
{
    check_lines(tested_engine);
    check_ladders(tested_engine);
    check_fields(tested_engine);
    check_errors(tested_engine);
    check_rules(tested_engine);
    check_servers(tested_engine);
    check_stretches(tested_engine);
    check_bakes(tested_engine);
    check_broken(tested_engine);
    check_lengths(tested_engine);
    check_images(tested_engine);
    check_bodies(tested_engine);
    check_damages(tested_engine);
    check_writing(tested_engine);
    return close_checks(tested_engine->name);
}
