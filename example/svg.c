#include "svg.h"

#include <math.h>
#include <stdio.h>

/* The page, in pixels: two panels side by side, a chart below them. */
#define PAGE_WIDTH 1240.0
#define PAGE_HEIGHT 890.0
#define MARGIN 50.0
#define PANEL_TOP 130.0
#define PANEL_WIDTH 550.0
#define PANEL_HEIGHT 440.0
#define CHART_TOP 660.0
#define CHART_HEIGHT 180.0
#define CHART_LEFT 120.0
#define CHART_WIDTH (PAGE_WIDTH - MARGIN - CHART_LEFT)

/* Half the width of the part of the bed that a panel shows, in millimetres. */
#define SHOWN_HALF_WIDTH 365.0

#define INK "#2b2f36"
#define PALE "#8a8f98"
#define RULE "#dcdad3"
#define BEFORE "#c4472d"
#define AFTER "#1c7a74"

/* A panel: where its middle is and how many pixels a millimetre takes. */
struct panel {
    double left;
    double middle_x;
    double middle_y;
    double scale;
    double magnification;
    const char *colour;
    const char *tint;
};

static void text(FILE *file, double x, double y, double size, const char *colour, const char *anchor, const char *words)
{
    fprintf(file, "<text x='%.1f' y='%.1f' font-size='%.0f' fill='%s' text-anchor='%s'>%s</text>\n", x, y, size, colour, anchor, words);
}

static void line(FILE *file, double x1, double y1, double x2, double y2, const char *colour, double width)
{
    fprintf(file, "<line x1='%.2f' y1='%.2f' x2='%.2f' y2='%.2f' stroke='%s' stroke-width='%.2f'/>\n", x1, y1, x2, y2, colour, width);
}

static void rectangle(FILE *file, double x, double y, double width, double height, const char *fill, const char *stroke)
{
    fprintf(file, "<rect x='%.1f' y='%.1f' width='%.1f' height='%.1f' rx='3' fill='%s' stroke='%s'/>\n", x, y, width, height, fill, stroke);
}

static void dot(FILE *file, double x, double y, double radius, const char *colour, double opacity)
{
    fprintf(file, "<circle cx='%.2f' cy='%.2f' r='%.1f' fill='%s' fill-opacity='%.2f'/>\n", x, y, radius, colour, opacity);
}

static void cross(FILE *file, double x, double y, double arm, const char *colour, double width)
{
    line(file, x - arm, y, x + arm, y, colour, width);
    line(file, x, y - arm, x, y + arm, colour, width);
}

static double largest_shift(const struct drawing *drawing, const struct drawing *wanted)
{
    double largest = 0;
    for (int i = 0; i < CROSSES; i++)
        largest = fmax(largest, hypot(drawing->crosses[i].x - wanted->crosses[i].x, drawing->crosses[i].y - wanted->crosses[i].y));
    return largest;
}

/* The largest of 1, 2, 5, 10, .. by which the longest error is no longer than the distance between two crosses. */
static double magnification_for(double shift)
{
    static const double factors[] = {500, 200, 100, 50, 20, 10, 5, 2};
    const double pitch = 2 * HALF_WIDTH / (COLUMNS - 1);
    for (size_t i = 0; i < sizeof factors / sizeof factors[0]; i++)
        if (factors[i] * shift <= pitch)
            return factors[i];
    return 1;
}

static struct spot on_page(const struct panel *panel, struct spot place)
{
    return (struct spot){panel->middle_x + panel->scale * place.x, panel->middle_y - panel->scale * place.y};
}

/* The crosses on the page, each shift from where it should be magnified. */
static void magnify(const struct panel *panel, const struct drawing *found, const struct drawing *wanted, struct drawing *page)
{
    for (int i = 0; i < CROSSES; i++) {
        struct spot shown = wanted->crosses[i];
        shown.x += panel->magnification * (found->crosses[i].x - shown.x);
        shown.y += panel->magnification * (found->crosses[i].y - shown.y);
        page->crosses[i] = on_page(panel, shown);
    }
}

/* Lines through the rows and columns of crosses, so that scale and skew are seen as the shape of a net. */
static void net(FILE *file, const struct drawing *page, const char *colour)
{
    for (int i = 0; i < CROSSES; i++) {
        struct spot here = page->crosses[i];
        if (i % COLUMNS + 1 < COLUMNS)
            line(file, here.x, here.y, page->crosses[i + 1].x, page->crosses[i + 1].y, colour, 0.8);
        if (i / COLUMNS + 1 < ROWS)
            line(file, here.x, here.y, page->crosses[i + COLUMNS].x, page->crosses[i + COLUMNS].y, colour, 0.8);
    }
}

static void ring(FILE *file, double x, double y)
{
    fprintf(file, "<circle cx='%.2f' cy='%.2f' r='6.5' fill='none' stroke='#9a9fa8' stroke-width='1.1'/>\n", x, y);
}

/* Where the crosses should be in grey, where they are in colour, and the way between them. */
static void panel_crosses(FILE *file, const struct panel *panel, const struct drawing *found)
{
    struct drawing wanted, rings, crosses;
    drawing_wanted(&wanted);
    magnify(panel, &wanted, &wanted, &rings);
    magnify(panel, found, &wanted, &crosses);
    net(file, &rings, RULE);
    net(file, &crosses, panel->tint);
    for (int i = 0; i < CROSSES; i++) {
        struct spot from = rings.crosses[i], to = crosses.crosses[i];
        ring(file, from.x, from.y);
        line(file, from.x, from.y, to.x, to.y, panel->colour, 0.9);
        cross(file, to.x, to.y, 5, panel->colour, 1.8);
    }
}

static void panel_draw(FILE *file, const struct panel *panel, const char *title, double error, const struct drawing *found)
{
    char words[80];
    rectangle(file, panel->left, PANEL_TOP, PANEL_WIDTH, PANEL_HEIGHT, "#ffffff", RULE);
    text(file, panel->left, PANEL_TOP - 14, 19, panel->colour, "start", title);
    snprintf(words, sizeof words, "error %.3f mm", error);
    text(file, panel->left + PANEL_WIDTH, PANEL_TOP - 14, 16, INK, "end", words);
    panel_crosses(file, panel, found);
}

static struct panel panel_at(double left, double magnification, const char *colour, const char *tint)
{
    return (struct panel){
        .left = left,
        .middle_x = left + PANEL_WIDTH / 2,
        .middle_y = PANEL_TOP + PANEL_HEIGHT / 2,
        .scale = PANEL_WIDTH / (2 * SHOWN_HALF_WIDTH),
        .magnification = magnification,
        .colour = colour,
        .tint = tint,
    };
}

/* The key below the panels, with a bar as long as a millimetre of shift is drawn, or ten where one is short. */
static void legend(FILE *file, const struct panel *panel)
{
    double y = PANEL_TOP + PANEL_HEIGHT + 26, right = PAGE_WIDTH - MARGIN;
    double millimetre = panel->scale * panel->magnification;
    double bar = millimetre < 20 ? 10 * millimetre : millimetre;
    const char *words = millimetre < 20 ? "10 mm of shift" : "1 mm of shift";
    text(file, right, y, 14, INK, "end", words);
    line(file, right - 118 - bar, y - 5, right - 118, y - 5, INK, 1.5);
    line(file, right - 118 - bar, y - 10, right - 118 - bar, y, INK, 1.5);
    line(file, right - 118, y - 10, right - 118, y, INK, 1.5);
    ring(file, MARGIN + 8, y - 5);
    text(file, MARGIN + 24, y, 14, INK, "start", "where a cross should be");
    cross(file, MARGIN + 218, y - 5, 5, BEFORE, 1.8);
    cross(file, MARGIN + 236, y - 5, 5, AFTER, 1.8);
    text(file, MARGIN + 252, y, 14, INK, "start", "where the scanner finds it, the shift magnified");
}

static double chart_x(size_t drawing, size_t drawings)
{
    return CHART_LEFT + CHART_WIDTH * ((double)drawing + 0.5) / (double)drawings;
}

/* Logarithmic, from 0.01 to 10 millimetres; what lies outside stands at the edge. */
static double chart_y(double error)
{
    double decades = log10(fmin(fmax(error, 0.01), 10)) + 2;
    return CHART_TOP + CHART_HEIGHT * (1 - decades / 3);
}

static void chart_axes(FILE *file, const struct picture *picture)
{
    static const double ticks[] = {10, 1, 0.1, 0.01};
    char words[80];
    text(file, MARGIN, CHART_TOP - 16, 17, INK, "start", "Error of each sheet");
    for (size_t i = 0; i < 4; i++) {
        double y = chart_y(ticks[i]);
        line(file, CHART_LEFT, y, CHART_LEFT + CHART_WIDTH, y, RULE, 1);
        snprintf(words, sizeof words, "%g mm", ticks[i]);
        text(file, CHART_LEFT - 10, y + 5, 13, PALE, "end", words);
    }
    for (size_t number = 10; number <= picture->drawings; number += 10) {
        snprintf(words, sizeof words, "%zu", number);
        text(file, chart_x(number - 1, picture->drawings), CHART_TOP + CHART_HEIGHT + 20, 13, PALE, "middle", words);
    }
    text(file, CHART_LEFT, CHART_TOP + CHART_HEIGHT + 20, 13, PALE, "start", "sheet");
}

static void chart_noise(FILE *file, double noise)
{
    double y = chart_y(noise);
    fprintf(file, "<line x1='%.1f' y1='%.2f' x2='%.1f' y2='%.2f' stroke='%s' stroke-dasharray='5 4'/>\n", CHART_LEFT, y, CHART_LEFT + CHART_WIDTH, y,
            AFTER);
    text(file, CHART_LEFT + 6, y - 6, 13, AFTER, "start", "scan noise alone");
}

/* Sheets drawn for a slope are pale; the others are the points that the search tried, joined in their order. */
static void chart_drawings(FILE *file, const struct picture *picture)
{
    fprintf(file, "<polyline fill='none' stroke='%s' stroke-width='1.4' points='", INK);
    for (size_t i = 0; i < picture->drawings; i++)
        if (!picture->probes[i])
            fprintf(file, "%.2f,%.2f ", chart_x(i, picture->drawings), chart_y(picture->errors[i]));
    fprintf(file, "'/>\n");
    for (size_t i = 0; i < picture->drawings; i++) {
        double x = chart_x(i, picture->drawings), y = chart_y(picture->errors[i]);
        if (picture->probes[i])
            dot(file, x, y, 2.6, PALE, 0.55);
        else
            dot(file, x, y, 4.5, INK, 1);
    }
}

static void chart_key(FILE *file)
{
    double right = PAGE_WIDTH - MARGIN, y = CHART_TOP - 16;
    dot(file, right - 348, y - 5, 4.5, INK, 1);
    text(file, right - 336, y, 14, INK, "start", "a correction tried");
    dot(file, right - 196, y - 5, 2.6, PALE, 0.55);
    text(file, right - 186, y, 14, INK, "start", "drawn only to find a slope");
}

static void heading(FILE *file, double magnification)
{
    char words[160];
    text(file, MARGIN, 52, 26, INK, "start", "Calibration of a pen plotter");
    snprintf(words, sizeof words,
             "%d crosses over %.0f &#215; %.0f mm, shifts drawn %.0f times as large; error: root mean square over the crosses", CROSSES,
             2 * HALF_WIDTH, 2 * HALF_HEIGHT, magnification);
    text(file, MARGIN, 78, 15, PALE, "start", words);
}

bool svg_write(const char *path, const struct picture *picture)
{
    FILE *file = fopen(path, "w");
    if (!file)
        return false;
    struct drawing wanted;
    drawing_wanted(&wanted);
    double magnification = magnification_for(largest_shift(picture->before, &wanted));
    struct panel before = panel_at(MARGIN, magnification, BEFORE, "#f0cfc6");
    struct panel after = panel_at(PAGE_WIDTH - MARGIN - PANEL_WIDTH, magnification, AFTER, "#bfe0dc");

    fprintf(file, "<svg xmlns='http://www.w3.org/2000/svg' viewBox='0 0 %.0f %.0f' width='%.0f' height='%.0f' ", PAGE_WIDTH, PAGE_HEIGHT, PAGE_WIDTH,
            PAGE_HEIGHT);
    fprintf(file, "font-family='Helvetica, Arial, sans-serif'>\n");
    fprintf(file, "<rect width='100%%' height='100%%' fill='#f7f5f0'/>\n");
    heading(file, magnification);
    panel_draw(file, &before, "Before", picture->error_before, picture->before);
    panel_draw(file, &after, "After", picture->error_after, picture->after);
    legend(file, &before);
    chart_axes(file, picture);
    chart_noise(file, picture->noise);
    chart_drawings(file, picture);
    chart_key(file);
    fprintf(file, "</svg>\n");
    bool written = !ferror(file);
    return fclose(file) == 0 && written;
}
