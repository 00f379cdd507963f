/* The signs that the picture writes with, 5 x 7 points each, a blank column between two. */
#ifndef HOST_FONT_H
#define HOST_FONT_H

enum { sign_wide = 5, sign_high = 7, sign_step = 6, signs_a_line = 16 };

/* Every sign stands in the drawing below at its place in this list; one that is not listed is left blank. */
static const char font_signs[] = "0123456789-./acdefghilmnorstuwybp,";

/* g, y, p and the comma hang below the line by two points. */
static const char font_hanging[] = "gyp,";

static const char *const font_rows[3][7] = {
    {
        " ###    #    ###   ###     #  #####   ##  #####  ###   ###                  #                 #",
        "#   #  ##   #   # #   #   ##  #      #        # #   # #   #                 #                 #",
        "#   #   #       #     #  # #  ####  #        #  #   # #   #                #   ###   ###   ####",
        "#   #   #      #    ##  #  #      # ####     #   ###   ####   ###         #       # #   # #   #",
        "#   #   #     #       # #####     # #   #   #   #   #     #              #     #### #     #   #",
        "#   #   #    #    #   #    #  #   # #   #   #   #   #    #         ##   #     #   # #   # #   #",
        " ###   ###  #####  ###     #   ###   ###    #    ###   ##          ##   #      ####  ###   ####",
    },
    {
        "        ##   #### #       #    ##                                  #                #   # #    ",
        "       #    #   # #             #                                  #                #   # #    ",
        " ###   #    #   # # ##   ##     #   ## #  # ##   ###  # ##   #### ###   #   # #   # #   # #### ",
        "#   # ###   #   # ##  #   #     #   # # # ##  # #   # ##  # #      #    #   # #   # #   # #   #",
        "#####  #     #### #   #   #     #   # # # #   # #   # #      ###   #    #   # # # #  #### #   #",
        "#      #        # #   #   #     #   # # # #   # #   # #         #  #    #  ## # # #     # #   #",
        " ###   #     ###  #   #  ###   ###  # # # #   #  ###  #     ####    ##   ## #  # #   ###  #### ",
    },
    {
        "####       ",
        "#   #      ",
        "#   #      ",
        "#   #  ##  ",
        "####   ##  ",
        "#       #  ",
        "#      #   ",
    },
};

#endif
