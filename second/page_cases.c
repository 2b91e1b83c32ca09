#include "page_cases.h"

void print_page_cases(void)
{
    print_taking_cases();
    print_putting_cases();
}
