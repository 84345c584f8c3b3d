/* All memory that nothing else uses, as one list of page frames: a queue with a cell for each of them. The queue lies after the kernel's
 * image, and the frames lie after the queue. Frames come and go by bursts, so each processor has a bundle of the queue's seats. */
#include "kernel.h"

#include "block.h"

/* Memory up to 3 GB lies in one piece from 1 MB on. */
enum { MOST_FRAMES = 3 * (1 << 18) };

extern unsigned char image_end[]; /* kernel.ld */

static const uint64_t stint = UINT64_C(1) << 40;

fak_c_seat frame_bundles[PROCESSORS], frame_carriers[PROCESSORS];
static unsigned char *block, *first_frame;
static uint64_t frame_count;

/* The next multiple of PAGE. */
static uint64_t whole_pages(uint64_t bytes) {
    return (bytes + PAGE - 1) / PAGE * PAGE;
}

void open_frames(uint32_t n) {
    uint64_t start = whole_pages((uint64_t)image_end), end = memory_bytes();
    if (end > (uint64_t)MOST_FRAMES * PAGE)
        end = (uint64_t)MOST_FRAMES * PAGE;
    uint64_t carriers = FEW_FRAMES > 0 ? n : 0, burst[BURST];
    uint64_t bytes = whole_pages(FAK_C_BUNDLES_BYTES(carriers, n, BURST, (end - start) / PAGE));
    block = (unsigned char *)start;
    first_frame = block + bytes;
    frame_count = (end - start - bytes) / PAGE;
    if (FEW_FRAMES > 0 && frame_count > FEW_FRAMES)
        frame_count = FEW_FRAMES;
    fak_c_block_begin(block, bytes);
    expect_ok(fak_c_open_bundles(frame_carriers, carriers, frame_bundles, n, BURST, frame_count, stint), "open the page frames");
    say("%u page frames of %u kB of memory in a list in %u bytes\n", frame_count, memory_bytes() / 1024, (uint64_t)fak_c_block_end());
    for (uint64_t i = 0, count; i < frame_count; i += count) {
        for (count = 0; count < BURST && i + count < frame_count; count++)
            burst[count] = (uintptr_t)(first_frame + (i + count) * PAGE);
        put_all(&frame_bundles[0], burst, count);
    }
}

/* Checks that this is a frame, which was not seen before. */
static void check_frame(uint64_t frame) {
    static unsigned char seen[MOST_FRAMES];
    uint64_t i = (frame - (uintptr_t)first_frame) / PAGE;
    if (i >= frame_count || frame % PAGE != 0 || seen[i]++ != 0)
        fail("a frame that is none, or is free twice:", i);
}

/* Checks that all frames are in the list, each once, and that its memory is free when its seats have left. */
uint64_t leave_frames(uint32_t n) {
    uint64_t count = 0, got, burst[BURST] = {0};
    while ((got = get_some(&frame_bundles[0], burst, BURST)) > 0) {
        for (uint64_t i = 0; i < got; i++)
            check_frame(burst[i]);
        count += got;
    }
    if (count != frame_count)
        fail("frames are lost, of which there are", count);
    for (uint32_t i = 0; i < n; i++)
        expect_ok(fak_c_leave(&frame_bundles[i]), "leave the frames");
    for (uint32_t i = 0; FEW_FRAMES > 0 && i < n; i++)
        expect_ok(fak_c_leave(&frame_carriers[i]), "leave the frames");
    if (!fak_c_block_is_free(block))
        fail("memory of the frames in use at the end", 0);
    return count;
}
