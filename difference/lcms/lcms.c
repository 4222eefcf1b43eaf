/* What LittleCMS computes, a colour at a time in doubles and many colours to a call: for the benchmark alone. */
#include <stddef.h>

#include <lcms2.h>
#include <lcms2_plugin.h>

/* Each Lab of three doubles to the X, Y, Z of three, under a white point. */
void lcms_lab(const double white[3], const double *lab, double *xyz, size_t count) {
    cmsCIEXYZ point = {white[0], white[1], white[2]};
    for (size_t i = 0; i < count; i++) {
        cmsCIELab from = {lab[3 * i], lab[3 * i + 1], lab[3 * i + 2]};
        cmsCIEXYZ to;
        cmsLab2XYZ(&point, &to, &from);
        xyz[3 * i] = to.X;
        xyz[3 * i + 1] = to.Y;
        xyz[3 * i + 2] = to.Z;
    }
}

/* Each A, B, C of three doubles to the X, Y, Z of three, by a matrix of three rows. */
void lcms_matrix(const double rows[9], const double *abc, double *xyz, size_t count) {
    cmsMAT3 matrix;
    for (int i = 0; i < 3; i++)
        _cmsVEC3init(&matrix.v[i], rows[3 * i], rows[3 * i + 1], rows[3 * i + 2]);
    for (size_t i = 0; i < count; i++) {
        cmsVEC3 from, to;
        _cmsVEC3init(&from, abc[3 * i], abc[3 * i + 1], abc[3 * i + 2]);
        _cmsMAT3eval(&to, &matrix, &from);
        for (int k = 0; k < 3; k++)
            xyz[3 * i + k] = to.n[k];
    }
}

/* A transform to XYZ, from a profile that it closes; NULL where LittleCMS makes none. */
static void *to_xyz(cmsHPROFILE from, cmsUInt32Number in, cmsUInt32Number out) {
    cmsHPROFILE to = cmsCreateXYZProfile();
    cmsHTRANSFORM made = cmsCreateTransform(from, in, to, out, INTENT_RELATIVE_COLORIMETRIC, cmsFLAGS_NOCACHE);
    cmsCloseProfile(from);
    cmsCloseProfile(to);
    return made;
}

/* Lab to XYZ, in doubles or in numbers of 16 bits. */
void *lcms_lab_transform(int words) {
    cmsHPROFILE from = cmsCreateLab4Profile(NULL);
    return words ? to_xyz(from, TYPE_Lab_16, TYPE_XYZ_16) : to_xyz(from, TYPE_Lab_DBL, TYPE_XYZ_DBL);
}

/* RGB with one gamma for all three to XYZ, in doubles or in numbers of 16 bits. */
void *lcms_rgb_transform(double gamma, int words) {
    cmsCIExyY white = {0.3127, 0.3290, 1.0};
    cmsCIExyYTRIPLE primaries = {{0.64, 0.33, 1.0}, {0.30, 0.60, 1.0}, {0.15, 0.06, 1.0}};
    cmsToneCurve *curve = cmsBuildGamma(NULL, gamma);
    cmsToneCurve *curves[3] = {curve, curve, curve};
    cmsHPROFILE from = cmsCreateRGBProfile(&white, &primaries, curves);
    cmsFreeToneCurve(curve);
    return words ? to_xyz(from, TYPE_RGB_16, TYPE_XYZ_16) : to_xyz(from, TYPE_RGB_DBL, TYPE_XYZ_DBL);
}

/* All colours in one call: the reading of profiles is done. */
void lcms_transform(void *made, const void *from, void *to, size_t count) {
    cmsDoTransform(made, from, to, (cmsUInt32Number)count);
}

void lcms_free(void *made) {
    cmsDeleteTransform(made);
}
