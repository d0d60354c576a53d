#include "zhulmekov.h"

#include <stdio.h>
#include <string.h>

int main(void) {
    static const char file[] = "rights=1\nattr=env,hour,int\nop=pass\nuser=p17\nobject=g2\nrule=pass,env.hour < 17\n";
    const uint8_t block[15] = {1, 1, 2, 0, 0, 0, 0, 0, 1, 0, 0, 10, 0, 0, 0}; /* p17 at g2, pass; one entry: attribute 0, the hour, is 10 */
    static uint64_t table[ZHUL_TABLE_WORDS];
    uint32_t answer = zhul_pass((const uint8_t *)file, strlen(file), block, sizeof block, table, ZHUL_TABLE_WORDS);
    puts(answer == ZHUL_PERMIT ? "open" : "closed");
    return 0;
}
