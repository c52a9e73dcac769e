/* Each function of the header has the type that it is declared with, in C and in C++, whatever the processor. Only compiled. */
#include "fairleadow.h"

typedef uint8_t (*writes)(const uint8_t *, size_t, uint8_t *, size_t, size_t *, size_t *);
typedef uint8_t (*checks)(const uint8_t *, size_t, size_t *, size_t *);
typedef uint8_t (*makes)(size_t, fairleadow_state *, size_t *, size_t *);
typedef uint8_t (*runs)(const uint8_t *, size_t, fairleadow_state *, const uint16_t *, size_t, uint32_t *, size_t, uint8_t *, size_t,
                        size_t *, size_t *);
typedef uint8_t (*dry_runs)(const uint8_t *, size_t, size_t, uint8_t *, size_t, const uint16_t *, size_t, uint32_t *, size_t, uint8_t *,
                            size_t, size_t *, size_t *);
typedef uint8_t (*prices)(const uint8_t *, size_t, fairleadow_state *, const uint16_t *, const uint16_t *, size_t, uint32_t *, size_t,
                          uint8_t *, size_t, uint64_t *, size_t *, size_t *);
typedef uint8_t (*ticks)(const uint8_t *, size_t, fairleadow_state *, uint16_t, uint32_t *, uint8_t *, size_t *, size_t *);
typedef uint8_t (*rebinds)(const uint8_t *, size_t, fairleadow_state *, size_t, size_t, size_t *, size_t *);
typedef uint8_t (*spins)(fairleadow_state *, size_t, size_t *, size_t, const uint8_t *, size_t, uint16_t, uint32_t *, uint8_t *,
                         size_t *, size_t *);
typedef uint8_t (*tells)(const uint8_t *, size_t, const fairleadow_state *, uint16_t, uint16_t *, uint16_t *, uint8_t *, size_t *,
                         size_t *);
typedef uint8_t (*lists)(const uint8_t *, size_t, uint16_t *, size_t, uint16_t *, size_t, size_t *, size_t *);
typedef uint8_t (*fetches)(size_t, size_t, uint8_t *, size_t, size_t *, size_t *);
typedef uint8_t (*counts)(const uint8_t *, size_t, size_t, size_t, size_t, uint32_t *, uint32_t *, uint32_t *, size_t *, size_t *);
typedef uint8_t (*means)(uint8_t, uint8_t *);
typedef uint32_t (*numbers)(void);
typedef uint32_t (*sums)(uint32_t, const uint8_t *, size_t);

struct every_function {
    writes read_chart, write_chart, translate, prepare, minimise;
    checks places, check_image, check_table;
    makes fresh;
    runs run, live_run;
    dry_runs dry_run;
    prices priced_run;
    ticks tick, live_tick;
    rebinds rebind, live_rebind;
    spins spin, live_spin;
    tells cause;
    lists list_rows;
    fetches little_chart;
    counts count_fillings;
    means meaning;
    numbers version;
    sums sum;
};

struct every_function every_function(void);

struct every_function every_function(void) {
    struct every_function all = {
        fairleadow_read_chart, fairleadow_write_chart, fairleadow_translate, fairleadow_prepare,   fairleadow_minimise,
        fairleadow_places,     fairleadow_check_image, fairleadow_check_table,
        fairleadow_fresh,      fairleadow_run,         fairleadow_live_run,  fairleadow_dry_run,
        fairleadow_priced_run, fairleadow_tick,        fairleadow_live_tick, fairleadow_rebind,    fairleadow_live_rebind,
        fairleadow_spin,       fairleadow_live_spin,   fairleadow_cause,     fairleadow_list_rows, fairleadow_little_chart,
        fairleadow_count_fillings, fairleadow_meaning, fairleadow_version,   fairleadow_sum,
    };
    return all;
}

typedef char a_state_has_130_bytes[sizeof(fairleadow_state) == 130 ? 1 : -1];
typedef char its_fields_stand_in_their_order[offsetof(fairleadow_state, size) == 0 && offsetof(fairleadow_state, depth) == 1 &&
                                             offsetof(fairleadow_state, places) == 2 && offsetof(fairleadow_state, results) == 34 &&
                                             offsetof(fairleadow_state, serving) == 50 && offsetof(fairleadow_state, numbers) == 66 &&
                                             offsetof(fairleadow_state, servers) == 98 ? 1 : -1];
