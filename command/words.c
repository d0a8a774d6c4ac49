/* What the numbers of the World Meteorological Organization's code tables mean, and how levels, times and angles are written. */
#include "command.h"

#include <inttypes.h>
#include <string.h>

/* ---- Parameters: code table 4.2 */

struct parameter {
    int discipline, category, number;
    const char *name, *unit;
};

/* In the order of their numbers. Those from 192 on are the Agency's own, from its papers: 0.1.219 from the one on model levels, 10.4.192 from the one on the
 * seas. Only the Agency's files are read, so that these numbers mean the same in all of them. */
static const struct parameter parameters[] = {
    {0, 0, 0, "temperature", "K"},
    {0, 0, 1, "virtual temperature", "K"},
    {0, 0, 2, "potential temperature", "K"},
    {0, 0, 3, "equivalent or pseudo-adiabatic potential temperature", "K"},
    {0, 0, 4, "maximum temperature", "K"},
    {0, 0, 5, "minimum temperature", "K"},
    {0, 0, 6, "dewpoint temperature", "K"},
    {0, 0, 7, "dewpoint depression", "K"},
    {0, 0, 8, "lapse rate", "K m-1"},
    {0, 0, 9, "temperature anomaly", "K"},
    {0, 0, 10, "latent heat net flux", "W m-2"},
    {0, 0, 11, "sensible heat net flux", "W m-2"},
    {0, 0, 12, "heat index", "K"},
    {0, 0, 13, "wind chill factor", "K"},
    {0, 0, 14, "minimum dewpoint depression", "K"},
    {0, 0, 15, "virtual potential temperature", "K"},
    {0, 0, 16, "snow phase change heat flux", "W m-2"},
    {0, 0, 17, "skin temperature", "K"},
    {0, 0, 18, "snow temperature (top of snow)", "K"},
    {0, 0, 20, "turbulent diffusion coefficient for heat", "m2 s-1"},
    {0, 0, 21, "apparent temperature", "K"},
    {0, 0, 27, "wet-bulb temperature", "K"},
    {0, 1, 0, "specific humidity", "kg kg-1"},
    {0, 1, 1, "relative humidity", "%"},
    {0, 1, 2, "humidity mixing ratio", "kg kg-1"},
    {0, 1, 3, "precipitable water", "kg m-2"},
    {0, 1, 4, "vapour pressure", "Pa"},
    {0, 1, 5, "saturation deficit", "Pa"},
    {0, 1, 6, "evaporation", "kg m-2"},
    {0, 1, 7, "precipitation rate", "kg m-2 s-1"},
    {0, 1, 8, "total precipitation", "kg m-2"},
    {0, 1, 9, "large-scale precipitation", "kg m-2"},
    {0, 1, 10, "convective precipitation", "kg m-2"},
    {0, 1, 11, "snow depth", "m"},
    {0, 1, 12, "snowfall rate water equivalent", "kg m-2 s-1"},
    {0, 1, 13, "water equivalent of accumulated snow depth", "kg m-2"},
    {0, 1, 14, "convective snow", "kg m-2"},
    {0, 1, 15, "large-scale snow", "kg m-2"},
    {0, 1, 16, "snow melt", "kg m-2"},
    {0, 1, 17, "snow age", "d"},
    {0, 1, 18, "absolute humidity", "kg m-3"},
    {0, 1, 19, "precipitation type", "code table 4.201"},
    {0, 1, 20, "integrated liquid water", "kg m-2"},
    {0, 1, 21, "condensate", "kg kg-1"},
    {0, 1, 22, "cloud mixing ratio", "kg kg-1"},
    {0, 1, 23, "ice water mixing ratio", "kg kg-1"},
    {0, 1, 24, "rain mixing ratio", "kg kg-1"},
    {0, 1, 25, "snow mixing ratio", "kg kg-1"},
    {0, 1, 26, "horizontal moisture convergence", "kg kg-1 s-1"},
    {0, 1, 27, "maximum relative humidity", "%"},
    {0, 1, 28, "maximum absolute humidity", "kg m-3"},
    {0, 1, 29, "total snowfall", "m"},
    {0, 1, 32, "graupel (snow pellets)", "kg kg-1"},
    {0, 1, 33, "categorical rain", "code table 4.222"},
    {0, 1, 34, "categorical freezing rain", "code table 4.222"},
    {0, 1, 35, "categorical ice pellets", "code table 4.222"},
    {0, 1, 36, "categorical snow", "code table 4.222"},
    {0, 1, 37, "convective precipitation rate", "kg m-2 s-1"},
    {0, 1, 38, "horizontal moisture divergence", "kg kg-1 s-1"},
    {0, 1, 39, "per cent frozen precipitation", "%"},
    {0, 1, 40, "potential evaporation", "kg m-2"},
    {0, 1, 41, "potential evaporation rate", "W m-2"},
    {0, 1, 42, "snow cover", "%"},
    {0, 1, 45, "total column-integrated rain", "kg m-2"},
    {0, 1, 46, "total column-integrated snow", "kg m-2"},
    {0, 1, 47, "large-scale water precipitation", "kg m-2"},
    {0, 1, 48, "convective water precipitation", "kg m-2"},
    {0, 1, 49, "total water precipitation", "kg m-2"},
    {0, 1, 50, "total snow precipitation", "kg m-2"},
    {0, 1, 51, "total column water (vapour, cloud water and cloud ice)", "kg m-2"},
    {0, 1, 52, "total precipitation rate", "kg m-2 s-1"},
    {0, 1, 53, "total snowfall rate water equivalent", "kg m-2 s-1"},
    {0, 1, 54, "large-scale precipitation rate", "kg m-2 s-1"},
    {0, 1, 55, "convective snowfall rate water equivalent", "kg m-2 s-1"},
    {0, 1, 56, "large-scale snowfall rate water equivalent", "kg m-2 s-1"},
    {0, 1, 57, "total snowfall rate", "m s-1"},
    {0, 1, 58, "convective snowfall rate", "m s-1"},
    {0, 1, 59, "large-scale snowfall rate", "m s-1"},
    {0, 1, 60, "snow depth water equivalent", "kg m-2"},
    {0, 1, 61, "snow density", "kg m-3"},
    {0, 1, 62, "snow evaporation", "kg m-2"},
    {0, 1, 64, "total column-integrated water vapour", "kg m-2"},
    {0, 1, 65, "rain precipitation rate", "kg m-2 s-1"},
    {0, 1, 66, "snow precipitation rate", "kg m-2 s-1"},
    {0, 1, 67, "freezing rain precipitation rate", "kg m-2 s-1"},
    {0, 1, 68, "ice pellets precipitation rate", "kg m-2 s-1"},
    {0, 1, 69, "total column-integrated cloud water", "kg m-2"},
    {0, 1, 70, "total column-integrated cloud ice", "kg m-2"},
    {0, 1, 71, "hail mixing ratio", "kg kg-1"},
    {0, 1, 72, "total column-integrated hail", "kg m-2"},
    {0, 1, 73, "hail precipitation rate", "kg m-2 s-1"},
    {0, 1, 74, "total column-integrated graupel", "kg m-2"},
    {0, 1, 75, "graupel (snow pellets) precipitation rate", "kg m-2 s-1"},
    {0, 1, 76, "convective rain rate", "kg m-2 s-1"},
    {0, 1, 77, "large-scale rain rate", "kg m-2 s-1"},
    {0, 1, 78, "total column water, precipitation included", "kg m-2"},
    {0, 1, 79, "evaporation rate", "kg m-2 s-1"},
    {0, 1, 80, "total condensate", "kg kg-1"},
    {0, 1, 81, "total column-integrated condensate", "kg m-2"},
    {0, 1, 82, "cloud ice mixing ratio", "kg kg-1"},
    {0, 1, 83, "specific cloud liquid water content", "kg kg-1"},
    {0, 1, 84, "specific cloud ice water content", "kg kg-1"},
    {0, 1, 85, "specific rainwater content", "kg kg-1"},
    {0, 1, 86, "specific snow water content", "kg kg-1"},
    {0, 1, 93, "relative humidity with respect to water", "%"},
    {0, 1, 94, "relative humidity with respect to ice", "%"},
    {0, 1, 219, "specific graupel content", "kg kg-1"},
    {0, 2, 0, "wind direction (where it comes from)", "degree true"},
    {0, 2, 1, "wind speed", "m s-1"},
    {0, 2, 2, "u-component of wind", "m s-1"},
    {0, 2, 3, "v-component of wind", "m s-1"},
    {0, 2, 4, "stream function", "m2 s-1"},
    {0, 2, 5, "velocity potential", "m2 s-1"},
    {0, 2, 6, "Montgomery stream function", "m2 s-2"},
    {0, 2, 7, "sigma coordinate vertical velocity", "s-1"},
    {0, 2, 8, "vertical velocity (pressure)", "Pa s-1"},
    {0, 2, 9, "vertical velocity (geometric)", "m s-1"},
    {0, 2, 10, "absolute vorticity", "s-1"},
    {0, 2, 11, "absolute divergence", "s-1"},
    {0, 2, 12, "relative vorticity", "s-1"},
    {0, 2, 13, "relative divergence", "s-1"},
    {0, 2, 14, "potential vorticity", "K m2 kg-1 s-1"},
    {0, 2, 15, "vertical u-component shear", "s-1"},
    {0, 2, 16, "vertical v-component shear", "s-1"},
    {0, 2, 17, "momentum flux, u-component", "N m-2"},
    {0, 2, 18, "momentum flux, v-component", "N m-2"},
    {0, 2, 20, "boundary layer dissipation", "W m-2"},
    {0, 2, 21, "maximum wind speed", "m s-1"},
    {0, 2, 22, "wind speed of gusts", "m s-1"},
    {0, 2, 23, "u-component of wind in gusts", "m s-1"},
    {0, 2, 24, "v-component of wind in gusts", "m s-1"},
    {0, 2, 25, "vertical speed shear", "s-1"},
    {0, 2, 26, "horizontal momentum flux", "N m-2"},
    {0, 2, 29, "drag coefficient", ""},
    {0, 2, 30, "frictional velocity", "m s-1"},
    {0, 3, 0, "pressure", "Pa"},
    {0, 3, 1, "pressure reduced to mean sea level", "Pa"},
    {0, 3, 2, "pressure tendency", "Pa s-1"},
    {0, 3, 3, "ICAO standard atmosphere reference height", "m"},
    {0, 3, 4, "geopotential", "m2 s-2"},
    {0, 3, 5, "geopotential height", "gpm"},
    {0, 3, 6, "geometric height", "m"},
    {0, 3, 7, "standard deviation of height", "m"},
    {0, 3, 8, "pressure anomaly", "Pa"},
    {0, 3, 9, "geopotential height anomaly", "gpm"},
    {0, 3, 10, "density", "kg m-3"},
    {0, 3, 11, "altimeter setting", "Pa"},
    {0, 3, 12, "thickness", "m"},
    {0, 3, 13, "pressure altitude", "m"},
    {0, 3, 18, "planetary boundary layer height", "m"},
    {0, 3, 20, "standard deviation of sub-grid scale orography", "m"},
    {0, 3, 25, "natural logarithm of the pressure in Pa", ""},
    {0, 3, 26, "Exner pressure", ""},
    {0, 3, 33, "geometric altitude above mean sea level", "m"},
    {0, 3, 34, "geometric height above ground level", "m"},
    {0, 4, 0, "net short-wave radiation flux (surface)", "W m-2"},
    {0, 4, 1, "net short-wave radiation flux (top of atmosphere)", "W m-2"},
    {0, 4, 2, "short-wave radiation flux", "W m-2"},
    {0, 4, 3, "global radiation flux", "W m-2"},
    {0, 4, 4, "brightness temperature", "K"},
    {0, 4, 7, "downward short-wave radiation flux", "W m-2"},
    {0, 4, 8, "upward short-wave radiation flux", "W m-2"},
    {0, 4, 9, "net short-wave radiation flux", "W m-2"},
    {0, 4, 10, "photosynthetically active radiation", "W m-2"},
    {0, 4, 11, "net short-wave radiation flux, clear sky", "W m-2"},
    {0, 4, 12, "downward UV radiation", "W m-2"},
    {0, 4, 13, "direct short-wave radiation flux", "W m-2"},
    {0, 4, 14, "diffuse short-wave radiation flux", "W m-2"},
    {0, 4, 50, "UV index under clear sky", ""},
    {0, 4, 51, "UV index", ""},
    {0, 4, 52, "downward short-wave radiation flux, clear sky", "W m-2"},
    {0, 4, 53, "upward short-wave radiation flux, clear sky", "W m-2"},
    {0, 4, 54, "direct normal short-wave radiation flux", "W m-2"},
    {0, 5, 0, "net long-wave radiation flux (surface)", "W m-2"},
    {0, 5, 1, "net long-wave radiation flux (top of atmosphere)", "W m-2"},
    {0, 5, 2, "long-wave radiation flux", "W m-2"},
    {0, 5, 3, "downward long-wave radiation flux", "W m-2"},
    {0, 5, 4, "upward long-wave radiation flux", "W m-2"},
    {0, 5, 5, "net long-wave radiation flux", "W m-2"},
    {0, 5, 6, "net long-wave radiation flux, clear sky", "W m-2"},
    {0, 5, 7, "brightness temperature", "K"},
    {0, 5, 8, "downward long-wave radiation flux, clear sky", "W m-2"},
    {0, 6, 0, "cloud ice", "kg m-2"},
    {0, 6, 1, "total cloud cover", "%"},
    {0, 6, 2, "convective cloud cover", "%"},
    {0, 6, 3, "low cloud cover", "%"},
    {0, 6, 4, "medium cloud cover", "%"},
    {0, 6, 5, "high cloud cover", "%"},
    {0, 6, 6, "cloud water", "kg m-2"},
    {0, 6, 7, "cloud amount", "%"},
    {0, 6, 8, "cloud type", "code table 4.203"},
    {0, 6, 9, "thunderstorm maximum tops", "m"},
    {0, 6, 11, "cloud base", "m"},
    {0, 6, 12, "cloud top", "m"},
    {0, 6, 13, "ceiling", "m"},
    {0, 6, 14, "non-convective cloud cover", "%"},
    {0, 6, 15, "cloud work function", "J kg-1"},
    {0, 6, 18, "total column-integrated cloud water", "kg m-2"},
    {0, 6, 19, "total column-integrated cloud ice", "kg m-2"},
    {0, 6, 20, "total column-integrated condensate", "kg m-2"},
    {0, 6, 22, "cloud cover", "%"},
    {0, 6, 25, "horizontal extent of cumulonimbus", "%"},
    {0, 6, 26, "height of convective cloud base", "m"},
    {0, 6, 27, "height of convective cloud top", "m"},
    {0, 6, 32, "fraction of cloud cover", ""},
    {0, 6, 33, "sunshine duration", "s"},
    {0, 6, 50, "fog", "%"},
    {0, 7, 0, "parcel lifted index (to 500 hPa)", "K"},
    {0, 7, 1, "best lifted index (to 500 hPa)", "K"},
    {0, 7, 2, "K index", "K"},
    {0, 7, 3, "KO index", "K"},
    {0, 7, 4, "total totals index", "K"},
    {0, 7, 5, "SWEAT index", ""},
    {0, 7, 6, "convective available potential energy", "J kg-1"},
    {0, 7, 7, "convective inhibition", "J kg-1"},
    {0, 7, 8, "storm relative helicity", "J kg-1"},
    {0, 7, 9, "energy helicity index", ""},
    {0, 7, 10, "surface lifted index", "K"},
    {0, 7, 11, "best (4-layer) lifted index", "K"},
    {0, 7, 12, "Richardson number", ""},
    {0, 7, 13, "Showalter index", "K"},
    {0, 7, 15, "updraught helicity", "m2 s-2"},
    {0, 7, 16, "bulk Richardson number", ""},
    {0, 14, 0, "total ozone", "DU"},
    {0, 14, 1, "ozone mixing ratio", "kg kg-1"},
    {0, 14, 2, "total column-integrated ozone", "DU"},
    {0, 19, 0, "visibility", "m"},
    {0, 19, 1, "albedo", "%"},
    {0, 19, 2, "thunderstorm probability", "%"},
    {0, 19, 3, "mixed layer depth", "m"},
    {0, 19, 5, "icing top", "m"},
    {0, 19, 6, "icing base", "m"},
    {0, 19, 11, "turbulent kinetic energy", "J kg-1"},
    {0, 19, 17, "maximum snow albedo", "%"},
    {0, 19, 18, "snow free albedo", "%"},
    {0, 19, 19, "snow albedo", "%"},
    {0, 19, 22, "clear air turbulence", "%"},
    {0, 19, 25, "weather", "code table 4.225"},
    {0, 19, 30, "eddy dissipation parameter", "m2/3 s-1"},
    {0, 19, 37, "icing severity", "code table 4.228"},
    {0, 191, 0, "seconds before the reference time", "s"},
    {0, 191, 1, "geographical latitude", "degree north"},
    {0, 191, 2, "geographical longitude", "degree east"},
    {2, 0, 0, "land cover (0 is sea, 1 is land)", "proportion"},
    {2, 0, 1, "surface roughness", "m"},
    {2, 0, 2, "soil temperature", "K"},
    {2, 0, 3, "soil moisture content", "kg m-2"},
    {2, 0, 4, "vegetation", "%"},
    {2, 0, 5, "water runoff", "kg m-2"},
    {2, 0, 7, "model terrain height", "m"},
    {2, 0, 9, "volumetric soil moisture content", "proportion"},
    {2, 0, 10, "ground heat flux", "W m-2"},
    {2, 0, 13, "plant canopy surface water", "kg m-2"},
    {2, 0, 22, "soil moisture", "kg m-3"},
    {2, 0, 25, "volumetric soil moisture", "m3 m-3"},
    {2, 0, 28, "leaf area index", ""},
    {2, 3, 18, "soil temperature", "K"},
    {2, 3, 19, "soil moisture", "kg m-3"},
    {2, 3, 20, "column-integrated soil moisture", "kg m-2"},
    {2, 3, 21, "soil ice", "kg m-3"},
    {2, 3, 22, "column-integrated soil ice", "kg m-2"},
    {10, 0, 3, "significant height of combined wind waves and swell", "m"},
    {10, 0, 4, "direction of wind waves", "degree true"},
    {10, 0, 5, "significant height of wind waves", "m"},
    {10, 0, 6, "mean period of wind waves", "s"},
    {10, 0, 7, "direction of swell waves", "degree true"},
    {10, 0, 8, "significant height of swell waves", "m"},
    {10, 0, 9, "mean period of swell waves", "s"},
    {10, 0, 10, "primary wave direction", "degree true"},
    {10, 0, 11, "primary wave mean period", "s"},
    {10, 0, 12, "secondary wave direction", "degree true"},
    {10, 0, 13, "secondary wave mean period", "s"},
    {10, 0, 14, "mean direction of combined wind waves and swell", "degree true"},
    {10, 0, 15, "mean period of combined wind waves and swell", "s"},
    {10, 0, 17, "friction velocity", "m s-1"},
    {10, 0, 21, "u-component surface Stokes drift", "m s-1"},
    {10, 0, 22, "v-component surface Stokes drift", "m s-1"},
    {10, 0, 24, "maximum individual wave height", "m"},
    {10, 0, 25, "inverse mean wave frequency", "s"},
    {10, 0, 28, "mean zero-crossing wave period", "s"},
    {10, 0, 34, "peak wave period", "s"},
    {10, 1, 0, "current direction", "degree true"},
    {10, 1, 1, "current speed", "m s-1"},
    {10, 1, 2, "u-component of current", "m s-1"},
    {10, 1, 3, "v-component of current", "m s-1"},
    {10, 2, 0, "ice cover", "proportion"},
    {10, 2, 1, "ice thickness", "m"},
    {10, 2, 2, "direction of ice drift", "degree true"},
    {10, 2, 3, "speed of ice drift", "m s-1"},
    {10, 2, 4, "u-component of ice drift", "m s-1"},
    {10, 2, 5, "v-component of ice drift", "m s-1"},
    {10, 2, 6, "ice growth rate", "m s-1"},
    {10, 2, 7, "ice divergence", "s-1"},
    {10, 2, 8, "ice temperature", "K"},
    {10, 3, 0, "water temperature", "K"},
    {10, 3, 1, "deviation of sea level from mean", "m"},
    {10, 3, 2, "heat exchange coefficient", ""},
    {10, 3, 3, "practical salinity", ""},
    {10, 4, 0, "main thermocline depth", "m"},
    {10, 4, 1, "main thermocline anomaly", "m"},
    {10, 4, 2, "transient thermocline depth", "m"},
    {10, 4, 3, "salinity", "kg kg-1"},
    {10, 4, 7, "bathymetry", "m"},
    {10, 4, 14, "water depth", "m"},
    {10, 4, 15, "water temperature", "K"},
    {10, 4, 16, "water density", "kg m-3"},
    {10, 4, 17, "water density anomaly (sigma)", "kg m-3"},
    {10, 4, 18, "water potential temperature (theta)", "K"},
    {10, 4, 19, "water potential density", "kg m-3"},
    {10, 4, 20, "water potential density anomaly (sigma theta)", "kg m-3"},
    {10, 4, 21, "practical salinity", ""},
    {10, 4, 192, "salinity (Practical Salinity Scale 1978)", ""},
};

static const struct parameter *parameter_of(int64_t discipline, int64_t category, int64_t number)
{
    for (size_t i = 0; i < sizeof parameters / sizeof *parameters; i++) {
        if (parameters[i].discipline == discipline && parameters[i].category == category && parameters[i].number == number)
            return &parameters[i];
    }
    return NULL;
}

const char *parameter_name(int64_t discipline, int64_t category, int64_t parameter)
{
    const struct parameter *found = parameter_of(discipline, category, parameter);
    return found != NULL ? found->name : NULL;
}

const char *parameter_unit(int64_t discipline, int64_t category, int64_t parameter)
{
    const struct parameter *found = parameter_of(discipline, category, parameter);
    return found != NULL ? found->unit : NULL;
}

char *parameter_in_words(const struct skeptolyr_field *field, char *text)
{
    const struct parameter *found = parameter_of(field->discipline, field->category, field->parameter);
    if (found == NULL)
        snprintf(text, WORDS_ROOM, "parameter %" PRId64 ".%" PRId64 ".%" PRId64, field->discipline, field->category, field->parameter);
    else if (found->unit[0] == '\0')
        snprintf(text, WORDS_ROOM, "%s", found->name);
    else
        snprintf(text, WORDS_ROOM, "%s [%s]", found->name, found->unit);
    return text;
}

/* ---- Other tables */

struct meaning {
    int number;
    const char *name;
};

/* The name of a number in a table that ends in an entry without a name. */
static const char *name_in(const struct meaning *meanings, int64_t number)
{
    while (meanings->name != NULL && meanings->number != number)
        meanings++;
    return meanings->name;
}

/* Code table 0.0. */
const char *discipline_name(int64_t discipline)
{
    static const struct meaning meanings[] = {
        {0, "meteorology"}, {1, "hydrology"}, {2, "land surface"}, {3, "satellite remote sensing"}, {4, "space weather"}, {10, "oceanography"},
        {20, "health and socioeconomic impacts"}, {0, NULL}};
    return name_in(meanings, discipline);
}

/* Code table 4.1, for the disciplines that have parameters above. */
const char *category_name(int64_t discipline, int64_t category)
{
    static const struct meaning meteorology[] = {
        {0, "temperature"}, {1, "moisture"}, {2, "momentum"}, {3, "mass"}, {4, "short-wave radiation"}, {5, "long-wave radiation"}, {6, "cloud"},
        {7, "thermodynamic stability indices"}, {13, "aerosols"}, {14, "trace gases"}, {15, "radar"}, {18, "nuclear or radiology"},
        {19, "physical atmospheric properties"}, {20, "atmospheric chemical constituents"}, {191, "miscellaneous"}, {0, NULL}};
    static const struct meaning land[] = {{0, "vegetation or biomass"}, {3, "soil"}, {0, NULL}};
    static const struct meaning sea[] = {
        {0, "waves"}, {1, "currents"}, {2, "ice"}, {3, "surface properties"}, {4, "sub-surface properties"}, {191, "miscellaneous"}, {0, NULL}};
    return discipline == 0 ? name_in(meteorology, category) : discipline == 2 ? name_in(land, category) : discipline == 10 ? name_in(sea, category) : NULL;
}

/* Code table 4.3. */
const char *process_name(int64_t process)
{
    static const struct meaning meanings[] = {
        {0, "analysis"}, {1, "initialization"}, {2, "forecast"}, {3, "bias-corrected forecast"}, {4, "ensemble forecast"}, {5, "probability forecast"},
        {6, "forecast error"}, {7, "analysis error"}, {8, "observation"}, {9, "climatological"}, {10, "probability-weighted forecast"},
        {11, "bias-corrected ensemble forecast"}, {12, "post-processed analysis"}, {13, "post-processed forecast"}, {14, "nowcast"}, {15, "hindcast"},
        {0, NULL}};
    return name_in(meanings, process);
}

/* ---- Surfaces and levels: code table 4.5 */

/* A surface: its name, the unit of its level, and what stands before and after the number of a level. Where both are NULL, a level is not usual. */
struct surface {
    int number;
    const char *name, *unit, *before, *after;
};

static const struct surface surfaces[] = {
    {1, "ground or water surface", "", NULL, NULL},
    {2, "cloud base", "", NULL, NULL},
    {3, "cloud tops", "", NULL, NULL},
    {4, "0 degree C isotherm", "", NULL, NULL},
    {5, "adiabatic condensation level of air lifted from the surface", "", NULL, NULL},
    {6, "maximum wind level", "", NULL, NULL},
    {7, "tropopause", "", NULL, NULL},
    {8, "nominal top of the atmosphere", "", NULL, NULL},
    {9, "sea bottom", "", NULL, NULL},
    {10, "entire atmosphere", "", NULL, NULL},
    {11, "cumulonimbus base", "m", NULL, NULL},
    {12, "cumulonimbus top", "m", NULL, NULL},
    {20, "isothermal level", "K", "isothermal level at ", " K"},
    {100, "isobaric surface", "Pa", "", " hPa"},
    {101, "mean sea level", "", NULL, NULL},
    {102, "altitude above mean sea level", "m", "", " m above mean sea level"},
    {103, "height above ground", "m", "", " m above ground"},
    {104, "sigma level", "", "sigma level ", ""},
    {105, "hybrid level", "", "model level ", ""},
    {106, "depth below land surface", "m", "", " m below land surface"},
    {107, "isentropic level", "K", "isentropic level at ", " K"},
    {108, "level at a pressure difference from the ground", "Pa", "", " Pa from the ground"},
    {109, "potential vorticity surface", "K m2 kg-1 s-1", "potential vorticity surface at ", " K m2 kg-1 s-1"},
    {111, "eta level", "", "eta level ", ""},
    {117, "mixed layer depth", "m", NULL, NULL},
    {118, "hybrid height level", "", "hybrid height level ", ""},
    {119, "hybrid pressure level", "", "hybrid pressure level ", ""},
    {151, "soil level", "", "soil level ", ""},
    {160, "depth below sea level", "m", "", " m below sea level"},
    {161, "depth below water surface", "m", "", " m below water surface"},
    {162, "lake or river bottom", "", NULL, NULL},
    {168, "ocean model level", "", "ocean model level ", ""},
};

static const struct surface *surface_of(int64_t number)
{
    for (size_t i = 0; i < sizeof surfaces / sizeof *surfaces; i++) {
        if (surfaces[i].number == number)
            return &surfaces[i];
    }
    return NULL;
}

const char *surface_name(int64_t surface)
{
    const struct surface *found = surface_of(surface);
    return found != NULL ? found->name : NULL;
}

const char *surface_unit(int64_t surface)
{
    const struct surface *found = surface_of(surface);
    return found != NULL ? found->unit : NULL;
}

enum { DIGITS_ROOM = 40, MOST_DECIMALS = 12, MOST_ZEROS = 6 };

/* Writes scaled / 10^factor in decimal digits, exactly. Where that would be long, the power of ten is written. */
static char *decimal(int64_t scaled, int64_t factor, char *digits)
{
    int64_t unit = 1;
    while (factor > 0 && scaled % 10 == 0) {
        scaled = scaled / 10;
        factor = scaled == 0 ? 0 : factor - 1;
    }
    if (scaled == 0)
        factor = 0;
    if (factor > MOST_DECIMALS || factor < -MOST_ZEROS) {
        snprintf(digits, DIGITS_ROOM, "%" PRId64 " x 10^%" PRId64, scaled, -factor);
        return digits;
    }
    for (int64_t i = 0; i < factor || i < -factor; i++)
        unit = 10 * unit;
    if (factor <= 0)
        snprintf(digits, DIGITS_ROOM, "%" PRId64, scaled * unit);
    else
        snprintf(digits, DIGITS_ROOM, "%" PRId64 ".%0*" PRId64, scaled / unit, (int)factor, scaled % unit);
    return digits;
}

char *level_in_words(const struct skeptolyr_field *field, char *text)
{
    enum { ISOBARIC = 100, HUNDRED = 2 };
    char digits[DIGITS_ROOM], number[DIGITS_ROOM];
    const struct surface *found = surface_of(field->surface);
    const char *name = found != NULL ? found->name : number;
    snprintf(number, sizeof number, "surface %" PRId64, field->surface);
    if (!field->level.is_given) {
        snprintf(text, WORDS_ROOM, "%s", name);
        return text;
    }
    /* The level of an isobaric surface is in Pa, and everybody speaks of hPa, which are a hundred Pa. */
    decimal(field->level.scaled, field->level.factor + (field->surface == ISOBARIC ? HUNDRED : 0), digits);
    if (found == NULL || found->before == NULL)
        snprintf(text, WORDS_ROOM, "%s, level %s%s%s", name, digits, found != NULL && found->unit[0] != '\0' ? " " : "", found != NULL ? found->unit : "");
    else
        snprintf(text, WORDS_ROOM, "%s%s%s", found->before, digits, found->after);
    return text;
}

/* ---- Times */

enum { CLOCK_ROOM = 80 };

/* Hours and minutes, and seconds where they are not 0. */
static void clock_in_words(const struct skeptolyr_time *time, char *text)
{
    if (time->second == 0)
        snprintf(text, CLOCK_ROOM, "%02" PRId64 ":%02" PRId64, time->hour, time->minute);
    else
        snprintf(text, CLOCK_ROOM, "%02" PRId64 ":%02" PRId64 ":%02" PRId64, time->hour, time->minute, time->second);
}

char *time_in_words(const struct skeptolyr_time *time, char *text)
{
    char clock[CLOCK_ROOM];
    clock_in_words(time, clock);
    snprintf(text, WORDS_ROOM, "%04" PRId64 "-%02" PRId64 "-%02" PRId64 " %s", time->year, time->month, time->day, clock);
    return text;
}

/* The instant, or the interval and what was done with it. The day of the end is left out where it is that of the start. */
char *times_in_words(const struct skeptolyr_field *field, char *text)
{
    char start[WORDS_ROOM], end[WORDS_ROOM];
    time_in_words(&field->valid, start);
    if (field->product_template == 0)
        return strcpy(text, start);
    time_in_words(&field->end, end);
    if (field->end.year == field->valid.year && field->end.month == field->valid.month && field->end.day == field->valid.day)
        clock_in_words(&field->end, end);
    snprintf(text, WORDS_ROOM, "%.60s to %.60s, %s", start, end, field->kind == 0 ? "mean" : "sum");
    return text;
}

/* ---- Grids and packing */

/* Degrees with six decimals, which are exact; below 0 in the south. */
char *degrees_in_words(int64_t millionths, char *text)
{
    int64_t size = millionths < 0 ? -millionths : millionths;
    snprintf(text, WORDS_ROOM, "%s%" PRId64 ".%06" PRId64, millionths < 0 ? "-" : "", size / 1000000, size % 1000000);
    return text;
}

/* Metres with three decimals, which are exact. No length of a grid is below 0. */
char *metres_in_words(int64_t thousandths, char *text)
{
    snprintf(text, WORDS_ROOM, "%" PRId64 ".%03" PRId64, thousandths / 1000, thousandths % 1000);
    return text;
}

int is_on_sheet(const struct skeptolyr_field *field)
{
    enum { LAMBERT_TEMPLATE = 30 };
    return field->grid_template == LAMBERT_TEMPLATE;
}

/* Columns x rows. Most grids are in degrees, so the kind is told of the others. */
char *grid_in_words(const struct skeptolyr_field *field, char *text)
{
    snprintf(text, WORDS_ROOM, "%" PRId64 " x %" PRId64 "%s", field->ni, field->nj, is_on_sheet(field) ? ", Lambert" : "");
    return text;
}

char *packing_in_words(const struct skeptolyr_field *field, char *text)
{
    snprintf(text, WORDS_ROOM, "%s, %" PRId64 " bit%s", field->data_template == 0 ? "simple" : "complex", field->bits, field->bits == 1 ? "" : "s");
    return text;
}
