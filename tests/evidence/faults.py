"""Faults for copies of the independent decoder, one at a time: what is wrong, the file, what stands there, and what the copy has in its place."""

DESCRIBED, PLACED = 'put_numbers(&describe(file, k)?.numbers(), numbers)', 'let (latitude, longitude) = place(file, k, n)?;'
ON_SHEET = 'let (right, down) = sheet(file, k, n)?;'
PUT = 'run[..numbers.len()].copy_from_slice(numbers);'
SPAN_EAST, SPAN_SOUTH = 'span_east(self.first, degrees.last)', 'self.first.latitude - degrees.last.latitude'
EAST, SOUTH = 'distance(%s, column, self.ni)' % SPAN_EAST, 'distance(%s, row, self.nj)' % SPAN_SOUTH
# What place and sheet answer for a grid of the other kind, the column and the row of a point, and the lengths and the place of a point on the sheet.
OTHER = ' => Err(Refusal::without_place(20)),'
NOT_DEGREES, NOT_LAMBERT, FOUND = 'GridKind::Lambert(_)' + OTHER, 'GridKind::Degrees(_)' + OTHER, 'column_and_row(&grid, n)'
LENGTHS, ON_IT = '(column * u64::from(self.dx), row * u64::from(self.dy))', '(right as i64, down as i64)'
DX, DY = 'require((1..=LARGEST_31_BITS).contains(&dx))?;', 'require((1..=LARGEST_31_BITS).contains(&dy))?;'
OF_LAMBERT = '[30, self.stated_latitude, i64::from(self.upright_meridian), dx, dy, cutting, other_cutting]'
# How a point is opened, how its element is found, what a missing point does, and its value.
POINT_OPENED, ELEMENT = 'let OpenField { presence, packing, .. } = open_in_file(file, k)?;', 'let element = value.first_mut().ok_or(Refusal::without_place(15))?;'
NO_POINT, NOT_PRESENT = 'if n >= presence.points {', 'if !presence.is_present(n) {'
VALUE, BEFORE = '*element = packing.value(packing.integer_behind(presence.present_before(n))?);', 'presence.present_before(n)'
# How the X of one point is looked for.
ANOTHER, SKIPPED = 'let is_another_wanted = left > 0;', 'values.behind(others, self.representation.bits)'
LOOKED_FOR = 'let (mut found, mut left) = (None, others);'
OWN_ALONE = '''let (mut packed, mut before_last, mut last, mut undone) = (data.packed, 0i64, 0i64, 0u64);
    for group in data.groups {
        for _ in 0..group.length {
            let y = i64::from(packed.read(group.width as u8)) + group.reference + data.z_min;
            let x = match undone {
                0 => data.first_value,
                1 => data.second_value,
                _ => y.wrapping_add(last.wrapping_mul(2)).wrapping_sub(before_last),
            };
            if undone == others {
                return if (0..=LARGEST_X).contains(&x) { Some(x as u32) } else { None };
            }
            before_last = last;
            last = x;
            undone += 1;
        }
    }
    '''
# How a picture is opened, how its room is judged, its X, the largest of them, and how it is put.
PICTURE_OPENED, PICTURE_ROOM = 'let OpenField { description, presence, packing } = open_in_file(file, k)?;', 'if (run.len() as u64) < length {'
ALL_X, LARGEST = 'let integers = packing.integers()?;', 'integers.iter().copied().max().unwrap_or(0)'
PICTURE_PUT, ITS_LENGTH = 'run[..drawn.len()].copy_from_slice(&drawn);', 'Ok(drawn.len() as u64)'
# What stands before the greys, the X of a point, and the grey of an X.
HEAD, GREY = r'format!("P5\n{} {}\n255\n", grid.ni, grid.nj)', 'GREYS_ABOVE * u64::from(x) / u64::from(largest)'
OWN_X, NO_X = 'if presence.is_present(point) { following.next() } else { None }', 'if largest == 0 { 0 }'
SHARE = '(u128::from(x) * %s >> 56) as u64'
# Turns the rows of a picture upside down before it is put.
UPSIDE_DOWN = """let (head, greys) = drawn.split_at(drawn.len() - presence.points as usize);
    let turned: Vec<u8> = greys.chunks(description.grid.ni as usize).rev().flatten().copied().collect();
    let drawn = [head, &turned[..]].concat();
    """
# Refuses a run that has no room for so many numbers.
NO_ROOM = 'if %s.len() < %d {\n        return Err(Refusal::without_place(15));\n    }\n    '

FAULTS = [
    # ---- tiling a file
    ('one octet more than the largest file is taken', 'tiling.rs', 'file.len() > LARGEST_FILE', 'file.len() > LARGEST_FILE + 1'),
    ('an empty file has a head that is cut', 'tiling.rs', 'return Err(refusal(2, 0));', 'return Err(refusal(3, 0));'),
    ('a message closes with three sevens', 'tiling.rs', '!message.ends_with(SECTION_8)', '!message.ends_with(b"777")'),
    ('edition 1 is taken', 'tiling.rs', 'left[7] != 2', 'left[7] > 2'),
    ('a message of 19 octets is long enough', 'tiling.rs', 'SHORTEST_MESSAGE: u64 = 20', 'SHORTEST_MESSAGE: u64 = 19'),
    ('the length of a message is read from its last four octets', 'tiling.rs', 'unsigned(&left[8..16])', 'unsigned(&left[12..16])'),
    ('a section may run into 7777', 'tiling.rs', 'section_at(&file[..section_8], place)', 'section_at(&file[..end], place)'),
    ('a section of four octets is long enough', 'tiling.rs', 'length < SECTION_HEAD_LENGTH as u64', 'length < SECTION_HEAD_LENGTH as u64 - 1'),
    ('a message has one grid', 'tiling.rs', '(6, 7) | (7, 3) |', '(6, 7) |'),
    ('section 2 is passed over', 'tiling.rs', '(0, 1) | (1, 3)', '(0, 1) | (1, 2) | (2, 3) | (1, 3)'),
    ('a field may end with section 6', 'tiling.rs', 'if number_before != 7', 'if number_before < 6'),
    ('an unfinished message is refused behind 7777', 'tiling.rs', 'refusal(6, section_8)', 'refusal(6, end)'),
    ('a bitmap stays in force behind section 3', 'tiling.rs', 'if number == 3 {', 'if number == 1 {'),
    ('a section 6 of five octets is taken for a bitmap', 'tiling.rs', 'number == 6 && section.length() >= 6 &&', 'number == 6 &&'),
    ('the last field answers for those behind it', 'tiling.rs', 'if index == k', 'if index <= k'),
    ('the discipline is the octet before it', 'tiling.rs', 'file[start + 6]', 'file[start + 5]'),
    # ---- sections 1 and 3
    ('the centre is one octet', 'sections.rs', 'section.unsigned(6, 7) == 34', 'section.octet(7) == 34'),
    ('status 2 is taken', 'sections.rs', 'status <= 1', 'status <= 2'),
    ('Ni may be 65,536', 'sections.rs', '(1..=65_535).contains(&ni)', '(1..=65_536).contains(&ni)'),
    ('a grid may have twice as many points', 'sections.rs', 'ni * nj <= MOST_POINTS', 'ni * nj <= 2 * MOST_POINTS'),
    ('a radius of all ones is taken', 'sections.rs', ' && stated != ALL_ONES_IN_4_OCTETS', ''),
    ('the radius of earth code 6 is the one that a paper prints', 'sections.rs', '6_371_229', '6_371_000'),
    ('a latitude may pass the pole', 'sections.rs', '(-90_000_000..=90_000_000)', '(-90_000_001..=90_000_000)'),
    ('a longitude may be 360 degrees', 'sections.rs', 'longitude <= 359_999_999', 'longitude <= 360_000_000'),
    ('equal longitudes are a full turn', 'sections.rs', 'if difference < 0', 'if difference <= 0'),
    ('the tolerance is one more', 'sections.rs', '.abs() <= steps', '.abs() <= steps + 1'),
    ('the first latitude may be below the last', 'sections.rs', 'require(first.latitude >= last.latitude)?;', ''),
    ('the scanning mode is not judged', 'sections.rs', 'section.octet(55) == 0x30 && ', ''),
    # ---- Lambert grids
    ('Lambert grids are not read', 'sections.rs', '(81, 30) => lambert_grid(section),', ''),
    ('a section 3 of 72 octets is taken for template 30', 'sections.rs', '(81, 30)', '(72 | 81, 30)'),
    ('a section 3 of 81 octets is taken for template 0', 'sections.rs', '(72, 0)', '(72 | 81, 0)'),
    ('template 30 may have octets behind its last', 'sections.rs', '(81, 30)', '(81.., 30)'),
    ('template 30 may lack its last octet', 'sections.rs', '(81, 30)', '(80 | 81, 30)'),
    ('the template of a grid is one octet', 'sections.rs', 'section.unsigned(13, 14)', 'u64::from(section.octet(14))'),
    ('octet 47 of a Lambert grid is not judged', 'sections.rs', 'require(section.octet(47) == 0x08)?;', ''),
    ('octet 64 of a Lambert grid is not judged', 'sections.rs', 'require(section.octet(64) == 0)?;', ''),
    ('octet 65 of a Lambert grid is not judged', 'sections.rs', 'require(section.octet(65) == 0)?;', ''),
    ('octets 74 to 81 are judged', 'sections.rs', 'require(section.octet(65) == 0)?;',
     'require(section.octet(65) == 0 && section.unsigned(74, 81) == u64::MAX)?;'),
    ('the first point of a Lambert grid is looked for where another grid has it', 'sections.rs', 'grid_point(section, 39)?', 'grid_point(section, 47)?'),
    ('the first latitude of a Lambert grid is not judged', 'sections.rs', 'grid_point(section, 39)?',
     'GridPoint { latitude: section.sign_and_size(39, 42), longitude: longitude(section, 43)? }'),
    ('the first longitude of a Lambert grid is not judged', 'sections.rs', 'grid_point(section, 39)?',
     'GridPoint { latitude: latitude(section, 39)?, longitude: section.unsigned(43, 46) as u32 }'),
    ('the latitude of the stated lengths is not judged', 'sections.rs', 'latitude(section, 48)?', 'section.sign_and_size(48, 51)'),
    ('the upright meridian is not judged', 'sections.rs', 'longitude(section, 52)?', 'section.unsigned(52, 55) as u32'),
    ('the first cutting latitude is not judged', 'sections.rs', 'latitude(section, 66)?', 'section.sign_and_size(66, 69)'),
    ('the second cutting latitude is not judged', 'sections.rs', 'latitude(section, 70)?', 'section.sign_and_size(70, 73)'),
    ('the cutting latitudes are judged by their order', 'sections.rs', 'let lambert = ', 'require(cutting_latitudes[0] >= cutting_latitudes[1])?;\n    let lambert = '),
    ('Dx may be 0', 'sections.rs', DX, DX.replace('1..=', '0..=')),
    ('Dy may be 0', 'sections.rs', DY, DY.replace('1..=', '0..=')),
    ('Dx may be more than 2,147,483,647', 'sections.rs', DX, DX.replace('LARGEST_31_BITS', 'LARGEST_31_BITS + 1')),
    ('Dy may be more than 2,147,483,647', 'sections.rs', DY, DY.replace('LARGEST_31_BITS', 'LARGEST_31_BITS + 1')),
    ('Dx of 1 is refused', 'sections.rs', DX, DX.replace('1..=', '2..=')),
    ('Dy of 2,147,483,647 is refused', 'sections.rs', DY, DY.replace('1..=', '1..')),
    # ---- section 4
    ('a missing surface is taken', 'sections.rs', 'require(section.octet(23) != 255)?;', ''),
    ('a factor of 255 is -127', 'sections.rs', '!no_factor && !no_scaled_level', '!no_scaled_level'),
    ('a scaled level may have its top bit set', 'sections.rs', ' && scaled_level <= LARGEST_31_BITS', ''),
    ('octet 34 is not judged', 'sections.rs', 'section.unsigned(29, 34) == 0xFFFF_FFFF_FFFF', 'section.unsigned(29, 33) == 0xFF_FFFF_FFFF'),
    ('the number of intervals is not judged', 'sections.rs', 'require(section.octet(42) == 1)?;', ''),
    ("an interval's end is not compared", 'sections.rs', 'require(valid_time.later(length)? == end)?;', 'valid_time.later(length)?;'),
    # ---- times
    ('2000 is no leap year', 'calendar.rs', '(year % 100 != 0 || year % 400 == 0)', 'year % 100 != 0'),
    ('April has 31 days', 'calendar.rs', '4 | 6 | 9 | 11 => 30', '6 | 9 | 11 => 30'),
    ('2400 is taken', 'calendar.rs', 'LAST_YEAR: u64 = 2399', 'LAST_YEAR: u64 = 2400'),
    ('an hour may be 24', 'calendar.rs', 'hour <= 23', 'hour <= 24'),
    ('a minute may have 61 seconds', 'calendar.rs', 'second <= 59)', 'second <= 60)'),
    ('a day has 23 hours', 'calendar.rs', '2 => Some(SECONDS_A_DAY)', '2 => Some(23 * 3600)'),
    # ---- section 5
    ('D is unsigned', 'packing.rs', 'section.sign_and_size(18, 19)', 'section.unsigned(18, 19) as i64'),
    ('D may be 23', 'exact.rs', 'LARGEST_D: i64 = 22', 'LARGEST_D: i64 = 23'),
    ('R may be infinite', 'exact.rs', "(r >> 23) & 0xFF != 0xFF;", 'r & 0x7FFF_FFFF <= 0x7F80_0000;'),
    ('32 bits are taken', 'packing.rs', 'section.octet(21) == 0 && bits <= MOST_BITS', 'section.octet(21) == 0 && bits <= MOST_BITS + 1'),
    ('one value is enough for groups', 'packing.rs', 'n >= 2 &&', 'n >= 1 &&'),
    ('more groups than values are left to section 7', 'packing.rs', ' && count <= n', ''),
    ('first differences are taken', 'packing.rs', 'section.octet(48) == 2 && ', ''),
    ('five octets for each of the first values', 'packing.rs', '(1..=4).contains(&value_octets)', '(1..=5).contains(&value_octets)'),
    # ---- section 6
    ('the top bit of a bitmap comes last', 'bitmap.rs', '0x80 >> (point % 8)', '1 << (point % 8)'),
    ('octets behind an indicator of 254 or 255 are taken', 'bitmap.rs', 'require(own.octet(6) == 0 || own.length() == 6)?;', ''),
    ('a bitmap may be longer than the points', 'bitmap.rs', 'section.length() == 6 + octets_for(points)', 'section.length() >= 6 + octets_for(points)'),
    ('N is not compared with the points present', 'lib.rs', 'presence.present_points() != u64::from(representation.n)', 'presence.present_points() < u64::from(representation.n)'),
    # ---- section 7
    ('octets behind the values are taken', 'packing.rs', 'section.length() == SECTION_HEAD_LENGTH + octets_for(bits)', 'section.length() >= SECTION_HEAD_LENGTH + octets_for(bits)'),
    ('octets behind the groups are taken', 'packing.rs', 'rest.len() as u64 == octets_for(packed_bits)', 'rest.len() as u64 >= octets_for(packed_bits)'),
    ("the last group's stored length is used", 'packing.rs', 'if self.index == self.rules.count', 'if self.rules.count == 0'),
    ('a width of 32 is taken', 'packing.rs', 'group.width <= u64::from(MOST_BITS)', 'group.width <= 1 + u64::from(MOST_BITS)'),
    ('a group may be empty', 'packing.rs', 'group.length >= 1 && ', ''),
    ('groups may hold fewer values than N', 'packing.rs', 'require(values_left == 0)?;', ''),
    ("Zmin is read as two's complement", 'packing.rs', 'let z_min = sign_and_size(cut(&mut rest, value_octets)?);',
     'let z_min = (unsigned(cut(&mut rest, value_octets)?) << (64 - 8 * value_octets)) as i64 >> (64 - 8 * value_octets);'),
    ('each group starts on a new octet', 'packing.rs', 'for group in data.groups {', 'for group in data.groups {\n            data.packed.bit_place = (data.packed.bit_place + 7) / 8 * 8;'),
    ('the first two packed values are not there', 'packing.rs', 'i64::from(data.packed.read(group.width as u8))',
     'i64::from(if undone < 2 { 0 } else { data.packed.read(group.width as u8) })'),
    ('differences are of the first order', 'packing.rs', 'y + 2 * last - before_last', 'y + last'),
    ('an X below 0 is taken', 'packing.rs', '(0..=LARGEST_X).contains(&x)', 'x <= LARGEST_X'),
    ('an X of 2,147,483,648 is taken', 'packing.rs', 'LARGEST_X: i64 = 2_147_483_647', 'LARGEST_X: i64 = 2_147_483_648'),
    # ---- from X to a double
    ('ties are rounded up', 'exact.rs', 'is_tie && kept % 2 == 1', 'is_tie'),
    ('what is dropped is forgotten', 'exact.rs', 'rest == half && has_more', 'rest == half && has_more && false'),
    ('D multiplies where it divides', 'exact.rs', 'if d < 0 {', 'if d > 0 {'),
    ('the smallest singles have a bit more', 'exact.rs', 'if exponent_field == 0 { fraction } else { fraction | 0x0080_0000 }', '{ fraction | 0x0080_0000 }'),
    # ---- decode and place
    ('only the run of doubles has to have room', 'lib.rs', 'end > values.len() as u128 || end > presence.len() as u128', 'end > values.len() as u128'),
    ('start and points wrap at 2^64', 'lib.rs', 'u128::from(start) + u128::from(field.presence.points)', 'u128::from(start.wrapping_add(field.presence.points))'),
    ('a field that fits to the last element is refused', 'lib.rs', 'if end > values.len() as u128', 'if end >= values.len() as u128'),
    ('16 is tried before 15', 'lib.rs', 'let end = u128', 'field.packing.integers()?;\n    let end = u128'),
    ('a missing point gets -0', 'lib.rs', 'map_or(0.0,', 'map_or(-0.0,'),
    ('N answers in place of the point count', 'lib.rs', 'Ok(field.presence.points as u32)', 'Ok(field.description.n)'),
    ('a point behind the last has a place', 'lib.rs', 'n >= grid.points()', 'n > grid.points()'),
    ('a longitude is not brought below 360 degrees', 'description.rs', ' % FULL_TURN;', ';'),
    ('longitudes go by steps of Di', 'description.rs', EAST, '(column * u64::from(degrees.di)) as i64'),
    ('longitudes are rounded down', 'description.rs', EAST, SPAN_EAST + ' * column as i64 / i64::from(self.ni - 1).max(1)'),
    ('longitudes are worked out from the last column, and halves go west', 'description.rs', EAST,
     SPAN_EAST + ' - ' + EAST.replace('column', 'u64::from(self.ni - 1) - column')),
    ('the span east is divided by Ni', 'description.rs', EAST, EAST.replace('self.ni', 'self.ni + 1')),
    ('latitudes are worked out from the last row, and halves go north', 'description.rs', SOUTH,
     SPAN_SOUTH + ' - ' + SOUTH.replace('row', 'u64::from(self.nj - 1) - row')),
    ('rows go north', 'description.rs', 'self.first.latitude - south', 'self.first.latitude + south'),
    # ---- the sheet
    ('a Lambert grid has degrees', 'lib.rs', NOT_DEGREES, 'GridKind::Lambert(_) => %s.map(|_| (grid.first.latitude, grid.first.longitude)),' % FOUND),
    ('a grid in degrees has a sheet', 'lib.rs', NOT_LAMBERT,
     'GridKind::Degrees(own) => %s.map(|(column, row)| ((column * u64::from(own.di)) as i64, (row * u64::from(own.dj)) as i64)),' % FOUND),
    ('17 is tried before 20 in degrees', 'lib.rs', NOT_DEGREES, NOT_DEGREES.replace('Err', FOUND + '.and(Err').replace('),', ')),')),
    ('17 is tried before 20 on a sheet', 'lib.rs', NOT_LAMBERT, NOT_LAMBERT.replace('Err', FOUND + '.and(Err').replace('),', ')),')),
    ('a Lambert grid is one that is not read, where degrees are asked for', 'lib.rs', NOT_DEGREES, NOT_DEGREES.replace('20', '10')),
    ('a grid of the other kind is refused at its section', 'lib.rs', NOT_LAMBERT,
     'GridKind::Degrees(_) => Err(Refusal { number: 20, place: describe(file, k)?.starts.section_3 }),'),
    ('20 is tried before 9', 'lib.rs', ON_SHEET,
     'if let Some(Grid { kind: GridKind::Degrees(_), .. }) = sections::grid(tiling::find(file, k)?.sections[3]) {\n'
     '        return Err(Refusal::without_place(20));\n    }\n    ' + ON_SHEET),
    ('a short run for a sheet place is refused before all else', 'lib.rs', ON_SHEET, NO_ROOM % ('sheet_place', 2) + ON_SHEET),
    ('15 is tried before 20', 'lib.rs', ON_SHEET, 'describe(file, k)?;\n    ' + NO_ROOM % ('sheet_place', 2) + ON_SHEET),
    ('Dx and Dy have changed places on the sheet', 'description.rs', LENGTHS, '(column * u64::from(self.dy), row * u64::from(self.dx))'),
    ('columns and rows are counted from 1', 'description.rs', LENGTHS, '((column + 1) * u64::from(self.dx), (row + 1) * u64::from(self.dy))'),
    ('rows go upward on the sheet', 'description.rs', ON_IT, '(right as i64, -(down as i64))'),
    ('down is told before right', 'description.rs', ON_IT, '(down as i64, right as i64)'),
    ('a place on the sheet wraps at 32 bits', 'description.rs', ON_IT, '(i64::from(right as u32), i64::from(down as u32))'),
    ('a place on the sheet is told in metres', 'description.rs', ON_IT, '(right as i64 / 1000, down as i64 / 1000)'),
    # ---- one point
    ('a point behind the last has a value', 'lib.rs', NO_POINT, 'if n > presence.points {'),
    ('the number of a point wraps at 32 bits', 'lib.rs', NO_POINT, 'let n = n & 0xFFFF_FFFF;\n    ' + NO_POINT),
    ('the point is counted among the points before it', 'lib.rs', BEFORE, 'presence.present_before(n + 1)'),
    ('the points before a point are counted without the bitmap', 'lib.rs', BEFORE, 'n'),
    ('the bits of the last octet are not counted', 'lib.rs', BEFORE, 'presence.present_before(n / 8 * 8)'),
    ('a point has the value of the one before it', 'lib.rs', BEFORE, 'presence.present_before(n).saturating_sub(1)'),
    ('a point has the value of the next', 'lib.rs', BEFORE, 'presence.present_before((n + 1).min(presence.points - 1))'),
    ('a missing point is refused by 16', 'lib.rs', NOT_PRESENT, NOT_PRESENT + '\n        packing.integers()?;'),
    ('a missing point is judged up to the next that is present', 'lib.rs', NOT_PRESENT,
     NOT_PRESENT + '\n        if presence.present_before(n) < presence.present_points() {\n            packing.integer_behind(presence.present_before(n))?;\n        }'),
    ('X is judged behind the point', 'lib.rs', VALUE, 'packing.integers()?;\n    ' + VALUE),
    ('one X more is judged than the point needs', 'packing.rs', ANOTHER, 'let is_another_wanted = found.is_none() || left > 0;'),
    ('of the X up to a point only its own is judged', 'packing.rs', LOOKED_FOR, OWN_ALONE + LOOKED_FOR),
    ('the second value is judged for the first point', 'packing.rs', 'grouped_integer_behind(data, others).ok_or_else',
     'grouped_integer_behind(data, others.max(1)).and(grouped_integer_behind(data, others)).ok_or_else'),
    ('the numbers before a point are skipped by octets', 'packing.rs', SKIPPED, 'values.behind(others, (self.representation.bits + 7) / 8 * 8)'),
    ('the place of the number of a point wraps at 28 bits', 'packing.rs', 'self.bit_place + numbers * u64::from(bits)',
     'self.bit_place + (numbers * u64::from(bits) & 0xFFF_FFFF)'),
    ('the element of a missing point is left as it was', 'lib.rs', '*element = 0.0;', ''),
    ('a missing point is given -0', 'lib.rs', '*element = 0.0;', '*element = -0.0;'),
    ('a missing point is told as present', 'lib.rs', '*element = 0.0;\n        return Ok(0);', '*element = 0.0;\n        return Ok(1);'),
    ('a missing point needs no room', 'lib.rs', ELEMENT, 'if value.is_empty() && !presence.is_present(n) {\n        return Ok(0);\n    }\n    ' + ELEMENT),
    ('a short run for a point is refused before all else', 'lib.rs', POINT_OPENED, NO_ROOM % ('value', 1) + POINT_OPENED),
    ('15 is tried before 17 for a point', 'lib.rs', NO_POINT, NO_ROOM % ('value', 1) + NO_POINT),
    ('16 is tried before 15 for a point', 'lib.rs', ELEMENT,
     'if presence.is_present(n) {\n        packing.integer_behind(presence.present_before(n))?;\n    }\n    ' + ELEMENT),
    ('16 is tried before 17 for a point', 'lib.rs', NO_POINT, 'packing.integer_behind(0)?;\n    ' + NO_POINT),
    ('a point of a Lambert grid is refused', 'lib.rs', POINT_OPENED,
     POINT_OPENED + '\n    if let GridKind::Lambert(_) = describe(file, k)?.grid.kind {\n        return Err(Refusal::without_place(20));\n    }'),
    ('what lies behind the value of a point is cleared', 'lib.rs', ELEMENT, 'value.iter_mut().skip(1).for_each(|other| *other = 0.0);\n    ' + ELEMENT),
    # ---- pictures
    ('the sizes of a picture have changed places', 'picture.rs', HEAD, HEAD.replace('grid.ni, grid.nj', 'grid.nj, grid.ni')),
    ('the newline before the greys is left out', 'picture.rs', HEAD, HEAD.replace(r'255\n', '255')),
    ('the name of a picture is that of the plain form', 'picture.rs', HEAD, HEAD.replace('P5', 'P2')),
    ('the largest grey is told as 254', 'picture.rs', HEAD, HEAD.replace('255', '254')),
    ('a newline stands between the sizes', 'picture.rs', HEAD, HEAD.replace('{} {}', r'{}\n{}')),
    ('the sizes of a picture have two digits at least', 'picture.rs', HEAD, HEAD.replace('{} {}', '{:02} {:02}')),
    ('the length of a picture has four digits for a size of five', 'picture.rs', '1 + digits(number / 10)', '(1 + digits(number / 10)).min(4)'),
    ('the length of a picture has one digit for a size of 10', 'picture.rs', 'if number < 10 {', 'if number <= 10 {'),
    ('a missing point is drawn as 1', 'picture.rs', 'MISSING: u8 = 0', 'MISSING: u8 = 1'),
    ('a missing point is drawn as 255', 'picture.rs', 'MISSING: u8 = 0', 'MISSING: u8 = 255'),
    ('greys begin with 0', 'picture.rs', 'DARKEST: u64 = 1', 'DARKEST: u64 = 0'),
    ('a grey is 1 + (255 x X) div M', 'picture.rs', 'GREYS_ABOVE: u64 = 254', 'GREYS_ABOVE: u64 = 255'),
    ('a grey is rounded to the nearest', 'picture.rs', GREY, '(2 * GREYS_ABOVE * u64::from(x) + u64::from(largest)) / (2 * u64::from(largest))'),
    ('a grey is rounded up', 'picture.rs', GREY, '(GREYS_ABOVE * u64::from(x) + u64::from(largest) - 1) / u64::from(largest)'),
    ('X is divided by M before it is multiplied', 'picture.rs', GREY, 'u64::from(x) / u64::from(largest) * GREYS_ABOVE'),
    ('254 x X wraps at 32 bits', 'picture.rs', GREY, 'u64::from((GREYS_ABOVE * u64::from(x)) as u32) / u64::from(largest)'),
    ('a grey is worked out in singles', 'picture.rs', GREY, '(254.0 * x as f32 / largest as f32) as u64'),
    ('a grey is a product with a share that is rounded down', 'picture.rs', GREY, SHARE % '((254 << 56) / u128::from(largest))'),
    ('a grey is a product with a share for each M', 'picture.rs', GREY, SHARE % '((254 << 56) / u128::from(largest) + 1)'),
    ('the points are white where M is 0', 'picture.rs', NO_X, 'if largest == 0 { GREYS_ABOVE }'),
    ('the X of a point is counted without the bitmap', 'picture.rs', OWN_X, OWN_X.replace('following.next()', 'integers.get(point as usize)')),
    ('a missing point uses up an X', 'picture.rs', OWN_X, 'following.next().filter(|_| presence.is_present(point))'),
    ('a point has the grey of the next', 'picture.rs', 'let mut following = integers.iter();', 'let mut following = integers.iter().skip(1);'),
    ('a point has the grey of the one before it', 'picture.rs', 'let mut following = integers.iter();',
     'let mut following = integers.iter().take(1).chain(integers);'),
    ('a missing point counts as the largest X that there can be', 'lib.rs', LARGEST,
     'if presence.present_points() < presence.points { 2_147_483_647 } else { %s }' % LARGEST),
    ('M is the largest X of the whole file', 'lib.rs', LARGEST, '(0..).map_while(|other| crate::integers(file, other).ok()).flatten().max().unwrap_or(0)'),
    ('M is as large as the bits allow', 'lib.rs', LARGEST, '((1u64 << description.bits) - 1) as u32'),
    ('M is 255 at least', 'lib.rs', LARGEST, LARGEST + '.max(255)'),
    ('M is found without the first X', 'lib.rs', LARGEST, LARGEST.replace('iter()', 'iter().skip(1)')),
    ('M is found without the last X', 'lib.rs', LARGEST, LARGEST.replace('iter()', 'iter().rev().skip(1)')),
    ('M is the last X', 'lib.rs', LARGEST, LARGEST.replace('max()', 'last()')),
    ('a field with no point present is not drawn', 'lib.rs', LARGEST, LARGEST.replace('unwrap_or(0)', 'ok_or(Refusal::without_place(13))?')),
    ('the rows of a picture go upward', 'lib.rs', PICTURE_PUT, UPSIDE_DOWN + PICTURE_PUT),
    ('a picture answers how many points it has', 'lib.rs', ITS_LENGTH, 'Ok(presence.points)'),
    ('a picture answers the length of its run', 'lib.rs', ITS_LENGTH, 'Ok(run.len() as u64)'),
    ('what lies behind the picture is cleared', 'lib.rs', PICTURE_PUT, 'run.fill(0);\n    ' + PICTURE_PUT),
    ('a run that the picture just fits is refused', 'lib.rs', PICTURE_ROOM, 'if run.len() as u64 <= length {'),
    ('a run for a picture needs room for the greys alone', 'lib.rs', PICTURE_ROOM, 'if (run.len() as u64) < presence.points {'),
    ('an empty run for a picture is refused before all else', 'lib.rs', PICTURE_OPENED, NO_ROOM % ('run', 1) + PICTURE_OPENED),
    ('16 is tried before 15 for a picture', 'lib.rs', PICTURE_ROOM, 'packing.integers()?;\n    ' + PICTURE_ROOM),
    ('an X out of range is refused without a place for a picture', 'lib.rs', ALL_X,
     ALL_X.replace('()?', '().map_err(|refusal| Refusal::without_place(refusal.number))?')),
    ('a field whose X are out of range is drawn', 'lib.rs', ALL_X, ALL_X.replace('()?', '().unwrap_or_default()')),
    ('a picture of a Lambert grid is refused', 'lib.rs', PICTURE_OPENED,
     PICTURE_OPENED + '\n    if let GridKind::Lambert(_) = description.grid.kind {\n        return Err(Refusal::without_place(20));\n    }'),
    # ---- what C is given
    ('latitudes are told by their sizes', 'description.rs', '[self.latitude, i64::from(self.longitude)]', '[self.latitude.abs(), i64::from(self.longitude)]'),
    ('N is told as the point count', 'description.rs', 'numbers.extend([i64::from(self.n),', 'numbers.extend([self.grid.points() as i64,'),
    ('the point count wraps at 16 bits', 'description.rs', 'self.points() as i64]', 'self.points() as u16 as i64]'),
    ('Ni and Nj have changed places', 'description.rs', 'i64::from(self.ni), i64::from(self.nj)', 'i64::from(self.nj), i64::from(self.ni)'),
    ('Di and Dj have changed places', 'description.rs', '[self.di, self.dj].map(i64::from)', '[self.dj, self.di].map(i64::from)'),
    ('a Lambert grid has 53 numbers', 'description.rs', 'lambert.numbers().to_vec()', 'vec![]'),
    ('a grid in degrees has 60 numbers', 'description.rs', 'GridKind::Degrees(_) => vec![],', 'GridKind::Degrees(_) => vec![0; 7],'),
    ('as many numbers of a Lambert grid are put as there is room for', 'lib.rs', DESCRIBED,
     'let told = describe(file, k)?.numbers();\n    put_numbers(&told[..told.len().min(numbers.len().max(53))], numbers)'),
    ('a Lambert grid has its first point for its last', 'description.rs', 'GridKind::Lambert(_) => [0; 4],',
     'GridKind::Lambert(_) => [self.first.latitude, i64::from(self.first.longitude), 0, 0],'),
    ('Dx and Dy are told as Di and Dj', 'description.rs', 'GridKind::Lambert(_) => [0; 4],', 'GridKind::Lambert(own) => [0, 0, own.dx.into(), own.dy.into()],'),
    ('the template of a Lambert grid is told as 0', 'description.rs', OF_LAMBERT, OF_LAMBERT.replace('30', '0')),
    ('the latitude of the stated lengths is told by its size', 'description.rs', OF_LAMBERT, OF_LAMBERT.replace('stated_latitude', 'stated_latitude.abs()')),
    ('the upright meridian is told with a sign', 'description.rs', OF_LAMBERT,
     OF_LAMBERT.replace('i64::from(self.upright_meridian)', '(i64::from(self.upright_meridian) + 180_000_000) % FULL_TURN - 180_000_000')),
    ('Dx and Dy are told in each other\'s place', 'description.rs', OF_LAMBERT, OF_LAMBERT.replace('dx, dy', 'dy, dx')),
    ('the cutting latitudes are told in each other\'s place', 'description.rs', OF_LAMBERT, OF_LAMBERT.replace('cutting, other_cutting', 'other_cutting, cutting')),
    ('a cutting latitude is told by its size', 'description.rs', OF_LAMBERT, OF_LAMBERT.replace('other_cutting', 'other_cutting.abs()')),
    ('no level is told by all ones', 'description.rs', 'map_or([0, 0, 0],', 'map_or([0, 255, 0xFFFF_FFFF],'),
    ('a factor is told by its size', 'description.rs', '[1, factor, i64::from(scaled_level)]', '[1, factor.abs(), i64::from(scaled_level)]'),
    ('an instant has its valid time for its end', 'description.rs', 'numbers.extend(self.product.numbers());',
     'let valid = [&[0], &time_numbers(self.valid_time)[..], &[0]].concat();\n        '
     'numbers.extend(if self.product == Product::Instant { valid } else { self.product.numbers() });'),
    ('a mean and a sum are told alike', 'description.rs', 'IntervalKind::Sum => 1,', 'IntervalKind::Sum => 0,'),
    ('R is told with a sign', 'description.rs', 'i64::from(self.r), self.e, self.d]', 'i64::from(self.r as i32), self.e, self.d]'),
    ('E is told by its size', 'description.rs', 'self.e, self.d]', 'self.e.abs(), self.d]'),
    ('D is told by its size', 'description.rs', 'self.e, self.d]', 'self.e, self.d.abs()]'),
    ('a run may be one number short', 'lib.rs', 'if run.len() < numbers.len() {', 'if run.len() + 1 < numbers.len() {'),
    ('a run that just fits is refused', 'lib.rs', 'if run.len() < numbers.len() {', 'if run.len() <= numbers.len() {'),
    ('what lies behind the numbers is cleared', 'lib.rs', PUT, 'run.fill(0);\n    ' + PUT),
    ('a short run for a description is refused before all else', 'lib.rs', DESCRIBED, NO_ROOM % ('numbers', 53) + DESCRIBED),
    ('a short run for a place is refused before all else', 'lib.rs', PLACED, NO_ROOM % ('position', 2) + PLACED),
    ('15 is tried before 17', 'lib.rs', PLACED, 'describe(file, k)?;\n    ' + NO_ROOM % ('position', 2) + PLACED),
]
