/* Draws what an item costs over the number of processors, both by logarithms, as an SVG. */
#include <math.h>
#include <stdlib.h>
#include "model.h"

enum { WIDTH = 860, HEIGHT = 520, LEFT = 76, RIGHT = 604, TOP = 64, BOTTOM = 440, APART = 19 };

/* Lines differ in dashes and marks as well as in hue; the hues are those of Okabe and Ito. */
static const struct look { const char *hue, *dashes, *mark; int is_filled; } looks[QUEUES] = {
    { "#0072b2", "", "M-5 0A5 5 0 1 0 5 0A5 5 0 1 0 -5 0Z", 1 },
    { "#0072b2", "7 4", "M-5 0A5 5 0 1 0 5 0A5 5 0 1 0 -5 0Z", 0 },
    { "#d55e00", "", "M-5 -5H5V5H-5Z", 1 },
    { "#444444", "", "M0 -6L6 5H-6Z", 1 },
    { "#444444", "7 4", "M0 -6L6 5H-6Z", 0 },
    { "#00805c", "2 3", "M0 -6L6 0L0 6L-6 0Z", 0 },
    { "#00805c", "", "M0 -6L6 0L0 6L-6 0Z", 1 },
};

static int lowest, highest; /* the decades of the costs */

static int across(int place) { return LEFT + place * (RIGHT - LEFT) / (SIZES - 1); }

static int down(double nanos) {
    return BOTTOM - (int)lround((log10(nanos) - lowest) * (BOTTOM - TOP) / (highest - lowest));
}

static void find_decades(struct tally tallies[SIZES][QUEUES]) {
    double least = INFINITY, most = 0;
    for (int s = 0; s < SIZES; s++)
        for (int q = 0; q < QUEUES; q++) {
            least = fmin(least, tallies[s][q].nanos);
            most = fmax(most, tallies[s][q].nanos);
        }
    lowest = (int)floor(log10(least));
    highest = (int)ceil(log10(most));
}

static void write_head(FILE *file) {
    fprintf(file, "<svg xmlns=\"http://www.w3.org/2000/svg\" width=\"%d\" height=\"%d\" viewBox=\"0 0 %d %d\" role=\"img\">\n",
            WIDTH, HEIGHT, WIDTH, HEIGHT);
    fprintf(file, "<title>What an item costs, by the model</title>\n");
    fprintf(file, "<style>text{font-family:'DejaVu Sans',Verdana,sans-serif;font-size:12px;fill:#111}"
                  ".title{font-size:16px;font-weight:bold}.number{text-anchor:end}.size{text-anchor:middle}</style>\n");
    fprintf(file, "<rect width=\"%d\" height=\"%d\" fill=\"#ffffff\"/>\n", WIDTH, HEIGHT);
    fprintf(file, "<text class=\"title\" x=\"16\" y=\"26\">What an item costs, by the model</text>\n");
    fprintf(file, "<text x=\"16\" y=\"46\">nanoseconds for an item put and got, of the whole system</text>\n");
}

static void write_axes(FILE *file, const int sizes[SIZES]) {
    for (int decade = lowest; decade <= highest; decade++) {
        int y = down(pow(10, decade));
        fprintf(file, "<path d=\"M%d %dH%d\" stroke=\"#b8b8b8\"/>\n", LEFT, y, RIGHT);
        fprintf(file, "<text class=\"number\" x=\"%d\" y=\"%d\">%.0f</text>\n", LEFT - 10, y + 4, pow(10, decade));
    }
    for (int s = 0; s < SIZES; s++) {
        fprintf(file, "<path d=\"M%d %dV%d\" stroke=\"#e4e4e4\"/>\n", across(s), TOP, BOTTOM);
        fprintf(file, "<text class=\"size\" x=\"%d\" y=\"%d\">%d</text>\n", across(s), BOTTOM + 20, sizes[s]);
    }
    fprintf(file, "<text class=\"size\" x=\"%d\" y=\"%d\">processors: half put, half get; one alone puts and gets</text>\n",
            (LEFT + RIGHT) / 2, BOTTOM + 42);
}

static void write_curve(FILE *file, struct tally tallies[SIZES][QUEUES], int q) {
    const struct look *look = &looks[q];
    fprintf(file, "<path fill=\"none\" stroke=\"%s\" stroke-width=\"2\" stroke-dasharray=\"%s\" d=\"", look->hue,
            *look->dashes ? look->dashes : "none");
    for (int s = 0; s < SIZES; s++) fprintf(file, "%c%d %d", s ? 'L' : 'M', across(s), down(tallies[s][q].nanos));
    fprintf(file, "\"/>\n");
    for (int s = 0; s < SIZES; s++)
        fprintf(file, "<path d=\"%s\" transform=\"translate(%d %d)\" fill=\"%s\" stroke=\"%s\" stroke-width=\"1.5\"/>\n", look->mark,
                across(s), down(tallies[s][q].nanos), look->is_filled ? look->hue : "#ffffff", look->hue);
}

static struct label { int queue, at, y; } labels[QUEUES];

static int by_height(const void *a, const void *b) {
    const struct label *x = a, *y = b;
    return x->at != y->at ? (x->at > y->at) - (x->at < y->at) : x->queue - y->queue;
}

/* Each curve's name is at its end, below the one before it. */
static void write_labels(FILE *file, struct tally last[QUEUES]) {
    for (int q = 0; q < QUEUES; q++) labels[q] = (struct label){ q, down(last[q].nanos), 0 };
    qsort(labels, QUEUES, sizeof *labels, by_height);
    for (int i = 0; i < QUEUES; i++) {
        struct label *label = &labels[i];
        label->y = i && label->at < labels[i - 1].y + APART ? labels[i - 1].y + APART : label->at;
        fprintf(file, "<path d=\"M%d %dL%d %d\" stroke=\"#8c8c8c\"/>\n", RIGHT + 8, label->at, RIGHT + 22, label->y);
        fprintf(file, "<text x=\"%d\" y=\"%d\">%s</text>\n", RIGHT + 26, label->y + 4, queues[label->queue].name);
    }
}

static void write_costs(FILE *file) {
    fprintf(file, "<text x=\"16\" y=\"%d\">A change at hand takes %g ns, a transfer %g, an access in the memory %g, a switch %g. "
            "%d cells.</text>\n",
            HEIGHT - 14, (double)costs.change / 1000, (double)costs.transfer / 1000, (double)costs.memory / 1000,
            (double)costs.stage / 1000, cells);
}

void write_picture(FILE *file, const int sizes[SIZES], struct tally tallies[SIZES][QUEUES]) {
    find_decades(tallies);
    write_head(file);
    write_axes(file, sizes);
    for (int q = QUEUES; q-- > 0;) write_curve(file, tallies, q);
    write_labels(file, tallies[SIZES - 1]);
    write_costs(file);
    fprintf(file, "</svg>\n");
}
