! Legzhuro from Fortran: an interface for each call of legzhuro.h, which says what each does, what it refuses and with which number.
!
! A list is an array followed by its number of elements, as size(kept, kind=c_size_t). Cells and nodes are counted from 0: the mass
! of cell c is kept(c + 1), the parent of node v is parents(v + 1), and the place of a refusal is counted from 0 too. A refused call
! leaves every list as it was, so the lists that a call writes are intent(inout).
!
! Fortran has no unsigned integers: an unsigned value of 8, 32 or 64 bits is passed as the signed integer with the same bits.
! A number from 0 to 2147483647 is itself, and so is every number that legzhuro_open, legzhuro_step and the calls on books write,
! and that legzhuro_read_answer reads in a file of legzhuro_reconstruct. Below 0 an integer(c_int32_t) i stands for i + 2**32; a
! byte b of a file is iand(int(b), 255).
module legzhuro
    use, intrinsic :: iso_c_binding, only: c_double, c_float, c_int8_t, c_int32_t, c_int64_t, c_size_t
    implicit none
    private

    integer, parameter, public :: legzhuro_max_cells = 512 ! or items
    integer, parameter, public :: legzhuro_max_nodes = 1024
    integer(c_int32_t), parameter, public :: legzhuro_max_total = 2147483647
    integer(c_int32_t), parameter, public :: legzhuro_max_scale = 30
    integer, parameter, public :: legzhuro_scratch = 4 ! scratch numbers for each node
    integer(c_int32_t), parameter, public :: legzhuro_ratio = 1048576 ! the parts of a mixing ratio; also the largest ratio
    integer, parameter, public :: legzhuro_members = 8 ! of a family
    integer, parameter, public :: legzhuro_family = 21 ! entries of the list that a family stands in
    integer, parameter, public :: legzhuro_nobody = 8 ! in the place of a member: nobody waits
    integer, parameter, public :: legzhuro_book = 32768 ! bytes of a book's buffer, which are those of a full book
    integer, parameter, public :: legzhuro_max_field_file = 18432 ! bytes
    integer, parameter, public :: legzhuro_max_answer_file = 3072 ! bytes

    public :: legzhuro_reconstruct, legzhuro_write_field, legzhuro_read_answer
    public :: legzhuro_split, legzhuro_open, legzhuro_step, legzhuro_import, legzhuro_export
    public :: legzhuro_export_single, legzhuro_bounds, legzhuro_book_start, legzhuro_book_report
    public :: legzhuro_family_start, legzhuro_family_open, legzhuro_family_step
    public :: legzhuro_family_register, legzhuro_family_next, legzhuro_family_waiting, legzhuro_family_turn
    public :: legzhuro_number, legzhuro_place, legzhuro_field_file, legzhuro_answer_file

    interface
        ! Reads a field file, repairs the masses and writes the answer file. Returns 0 or the refusal's number.
        function legzhuro_reconstruct(file, file_len, answer, answer_len) result(returned) bind(c, name='legzhuro_reconstruct')
            import :: c_int8_t, c_int32_t, c_size_t
            integer(c_size_t), value :: file_len, answer_len
            integer(c_int8_t), intent(in) :: file(file_len)
            integer(c_int8_t), intent(inout) :: answer(answer_len)
            integer(c_int32_t) :: returned
        end function legzhuro_reconstruct

        ! Writes a field file of legzhuro_field_file(cells, nodes) bytes.
        function legzhuro_write_field(cells, nodes, total, targets, targets_len, lows, lows_len, highs, highs_len, safe_lows, &
                                      safe_lows_len, safe_highs, safe_highs_len, weights, weights_len, parents, parents_len, &
                                      buffer, buffer_len) result(returned) bind(c, name='legzhuro_write_field')
            import :: c_int8_t, c_int32_t, c_int64_t, c_size_t
            integer(c_size_t), value :: cells, nodes
            integer(c_int32_t), value :: total
            integer(c_size_t), value :: targets_len, lows_len, highs_len, safe_lows_len, safe_highs_len, weights_len, parents_len
            integer(c_size_t), value :: buffer_len
            integer(c_int32_t), intent(in) :: targets(targets_len), lows(lows_len), highs(highs_len), safe_lows(safe_lows_len)
            integer(c_int32_t), intent(in) :: safe_highs(safe_highs_len), weights(weights_len), parents(parents_len)
            integer(c_int8_t), intent(inout) :: buffer(buffer_len)
            integer(c_int64_t) :: returned
        end function legzhuro_write_field

        ! Reads an answer file of legzhuro_answer_file(cells) bytes: answer(1) is the number of cells, answer(2) the outcome,
        ! answer(3) the total, answer(4) the change, answer(5) the sum shared out; an older file shows 0 there, which tells nothing.
        function legzhuro_read_answer(file, file_len, masses, masses_len, answer, answer_len) result(returned) &
            bind(c, name='legzhuro_read_answer')
            import :: c_int8_t, c_int32_t, c_int64_t, c_size_t
            integer(c_size_t), value :: file_len, masses_len, answer_len
            integer(c_int8_t), intent(in) :: file(file_len)
            integer(c_int32_t), intent(inout) :: masses(masses_len)
            integer(c_int64_t), intent(inout) :: answer(answer_len)
            integer(c_int64_t) :: returned
        end function legzhuro_read_answer

        ! Splits a total among items: deficit(1) is what is missing or, below 0, too much.
        function legzhuro_split(targets, targets_len, lows, lows_len, highs, highs_len, weights, weights_len, total, masses, &
                                masses_len, deficit, deficit_len) result(returned) bind(c, name='legzhuro_split')
            import :: c_int64_t, c_size_t
            integer(c_size_t), value :: targets_len, lows_len, highs_len, weights_len, masses_len, deficit_len
            integer(c_int64_t), intent(in) :: targets(targets_len), lows(lows_len), highs(highs_len), weights(weights_len)
            integer(c_int64_t), value :: total
            integer(c_int64_t), intent(inout) :: masses(masses_len), deficit(deficit_len)
            integer(c_int64_t) :: returned
        end function legzhuro_split

        ! Opens a kept field: answer(1) is the total, answer(2) the scale.
        function legzhuro_open(kept, kept_len, scale, answer, answer_len) result(returned) bind(c, name='legzhuro_open')
            import :: c_int32_t, c_int64_t, c_size_t
            integer(c_size_t), value :: kept_len, answer_len
            integer(c_int32_t), value :: scale
            integer(c_int32_t), intent(in) :: kept(kept_len)
            integer(c_int64_t), intent(inout) :: answer(answer_len)
            integer(c_int64_t) :: returned
        end function legzhuro_open

        ! Starts a source book from a total: answer(1) is its length in bytes, 512. The buffer has legzhuro_book bytes.
        function legzhuro_book_start(total, buffer, buffer_len, answer, answer_len) result(returned) &
            bind(c, name='legzhuro_book_start')
            import :: c_int8_t, c_int32_t, c_int64_t, c_size_t
            integer(c_int32_t), value :: total
            integer(c_size_t), value :: buffer_len, answer_len
            integer(c_int8_t), intent(inout) :: buffer(buffer_len)
            integer(c_int64_t), intent(inout) :: answer(answer_len)
            integer(c_int64_t) :: returned
        end function legzhuro_book_start

        ! Reports a book: answer(1) is the total it opens with, answer(2) the sum of its sources above 0, answer(3) the size of the
        ! sum of those below, answer(4) the total it closes with. file_len is the book's own length.
        function legzhuro_book_report(file, file_len, answer, answer_len) result(returned) bind(c, name='legzhuro_book_report')
            import :: c_int8_t, c_int64_t, c_size_t
            integer(c_size_t), value :: file_len, answer_len
            integer(c_int8_t), intent(in) :: file(file_len)
            integer(c_int64_t), intent(inout) :: answer(answer_len)
            integer(c_int64_t) :: returned
        end function legzhuro_book_report

        ! Steps a kept field: answer(1) is the outcome, answer(2) the new total, answer(3) the change, answer(4) the sum shared
        ! out, answer(5) the new length of the book. The new total is at total_scale, which scale must be. The book is the first
        ! book_length bytes of book.
        function legzhuro_step(total, total_scale, kept, kept_len, source, scale, targets, targets_len, lows, lows_len, highs, &
                               highs_len, safe_lows, safe_lows_len, safe_highs, safe_highs_len, weights, weights_len, parents, &
                               parents_len, scratch, scratch_len, book, book_room, book_length, answer, answer_len) &
            result(returned) bind(c, name='legzhuro_step')
            import :: c_int8_t, c_int32_t, c_int64_t, c_size_t
            integer(c_size_t), value :: kept_len, targets_len, lows_len, highs_len, safe_lows_len, safe_highs_len, weights_len
            integer(c_size_t), value :: parents_len, scratch_len, book_room, book_length, answer_len
            integer(c_int32_t), value :: total, total_scale, source, scale
            integer(c_int32_t), intent(inout) :: kept(kept_len)
            integer(c_int32_t), intent(in) :: targets(targets_len), lows(lows_len), highs(highs_len), safe_lows(safe_lows_len)
            integer(c_int32_t), intent(in) :: safe_highs(safe_highs_len), weights(weights_len), parents(parents_len)
            integer(c_int8_t), intent(inout) :: book(book_room)
            integer(c_int64_t), intent(inout) :: scratch(scratch_len), answer(answer_len)
            integer(c_int64_t) :: returned
        end function legzhuro_step

        ! Starts a family: family(1) is the cap, family(2) the scale, family(3) the number of cells; of member i, counted from 0,
        ! family(4 + 2*i) is 1 if it is open, and family(5 + 2*i) is its total; in family(20) bit i is set if member i waits, and
        ! family(21) is the member with which the search for the next in turn begins.
        function legzhuro_family_start(cap, scale, cells, family, family_len) result(returned) bind(c, name='legzhuro_family_start')
            import :: c_int32_t, c_int64_t, c_size_t
            integer(c_int64_t), value :: cap
            integer(c_int32_t), value :: scale, cells
            integer(c_size_t), value :: family_len
            integer(c_int64_t), intent(inout) :: family(family_len)
            integer(c_int64_t) :: returned
        end function legzhuro_family_start

        ! Opens a member of a family: answer(1) is the total, answer(2) the scale.
        function legzhuro_family_open(family, family_len, member, kept, kept_len, scale, answer, answer_len) result(returned) &
            bind(c, name='legzhuro_family_open')
            import :: c_int32_t, c_int64_t, c_size_t
            integer(c_size_t), value :: family_len, kept_len, answer_len
            integer(c_int32_t), value :: member, scale
            integer(c_int32_t), intent(in) :: kept(kept_len)
            integer(c_int64_t), intent(inout) :: family(family_len), answer(answer_len)
            integer(c_int64_t) :: returned
        end function legzhuro_family_open

        ! Steps a member of a family: answer(1) is the outcome, answer(2) the new total, answer(3) the change, answer(4) the sum
        ! shared out, answer(5) the new length of the member's book.
        function legzhuro_family_step(family, family_len, member, kept, kept_len, source, scale, targets, targets_len, lows, &
                                      lows_len, highs, highs_len, safe_lows, safe_lows_len, safe_highs, safe_highs_len, weights, &
                                      weights_len, parents, parents_len, scratch, scratch_len, book, book_room, book_length, &
                                      answer, answer_len) result(returned) bind(c, name='legzhuro_family_step')
            import :: c_int8_t, c_int32_t, c_int64_t, c_size_t
            integer(c_size_t), value :: family_len, kept_len, targets_len, lows_len, highs_len, safe_lows_len, safe_highs_len
            integer(c_size_t), value :: weights_len, parents_len, scratch_len, book_room, book_length, answer_len
            integer(c_int32_t), value :: member, source, scale
            integer(c_int32_t), intent(inout) :: kept(kept_len)
            integer(c_int32_t), intent(in) :: targets(targets_len), lows(lows_len), highs(highs_len), safe_lows(safe_lows_len)
            integer(c_int32_t), intent(in) :: safe_highs(safe_highs_len), weights(weights_len), parents(parents_len)
            integer(c_int8_t), intent(inout) :: book(book_room)
            integer(c_int64_t), intent(inout) :: family(family_len), scratch(scratch_len), answer(answer_len)
            integer(c_int64_t) :: returned
        end function legzhuro_family_step

        ! Registers a member of a family as waiting for a turn.
        function legzhuro_family_register(family, family_len, member) result(returned) bind(c, name='legzhuro_family_register')
            import :: c_int32_t, c_int64_t, c_size_t
            integer(c_size_t), value :: family_len
            integer(c_int32_t), value :: member
            integer(c_int64_t), intent(inout) :: family(family_len)
            integer(c_int64_t) :: returned
        end function legzhuro_family_register

        ! Reads the next in turn: answer(1) is the member, counted from 0, or 8 for nobody.
        function legzhuro_family_next(family, family_len, answer, answer_len) result(returned) bind(c, name='legzhuro_family_next')
            import :: c_int64_t, c_size_t
            integer(c_size_t), value :: family_len, answer_len
            integer(c_int64_t), intent(in) :: family(family_len)
            integer(c_int64_t), intent(inout) :: answer(answer_len)
            integer(c_int64_t) :: returned
        end function legzhuro_family_next

        ! Reads how many members wait: answer(1) is their number.
        function legzhuro_family_waiting(family, family_len, answer, answer_len) result(returned) &
            bind(c, name='legzhuro_family_waiting')
            import :: c_int64_t, c_size_t
            integer(c_size_t), value :: family_len, answer_len
            integer(c_int64_t), intent(in) :: family(family_len)
            integer(c_int64_t), intent(inout) :: answer(answer_len)
            integer(c_int64_t) :: returned
        end function legzhuro_family_waiting

        ! A turn: steps the next in turn. answer(1) is the member, or 8 for idle, answer(2) what its step returns, answer(3) the
        ! outcome, answer(4) the new total, answer(5) the change, answer(6) the sum shared out, answer(7) its book's new length.
        function legzhuro_family_turn(family, family_len, kept, kept_len, source, scale, targets, targets_len, lows, lows_len, &
                                      highs, highs_len, safe_lows, safe_lows_len, safe_highs, safe_highs_len, weights, &
                                      weights_len, parents, parents_len, scratch, scratch_len, book, book_room, book_length, &
                                      answer, answer_len) result(returned) bind(c, name='legzhuro_family_turn')
            import :: c_int8_t, c_int32_t, c_int64_t, c_size_t
            integer(c_size_t), value :: family_len, kept_len, targets_len, lows_len, highs_len, safe_lows_len, safe_highs_len
            integer(c_size_t), value :: weights_len, parents_len, scratch_len, book_room, book_length, answer_len
            integer(c_int32_t), value :: source, scale
            integer(c_int32_t), intent(inout) :: kept(kept_len)
            integer(c_int32_t), intent(in) :: targets(targets_len), lows(lows_len), highs(highs_len), safe_lows(safe_lows_len)
            integer(c_int32_t), intent(in) :: safe_highs(safe_highs_len), weights(weights_len), parents(parents_len)
            integer(c_int8_t), intent(inout) :: book(book_room)
            integer(c_int64_t), intent(inout) :: family(family_len), scratch(scratch_len), answer(answer_len)
            integer(c_int64_t) :: returned
        end function legzhuro_family_turn

        ! Makes the bounds of a field from air masses and mixing ratios in parts of 1048576.
        function legzhuro_bounds(air, air_len, low_ratios, low_ratios_len, high_ratios, high_ratios_len, lows, lows_len, highs, &
                                 highs_len, safe_lows, safe_lows_len, safe_highs, safe_highs_len) result(returned) &
            bind(c, name='legzhuro_bounds')
            import :: c_int32_t, c_int64_t, c_size_t
            integer(c_size_t), value :: air_len, low_ratios_len, high_ratios_len, lows_len, highs_len, safe_lows_len, safe_highs_len
            integer(c_int32_t), intent(in) :: air(air_len), low_ratios(low_ratios_len), high_ratios(high_ratios_len)
            integer(c_int32_t), intent(inout) :: lows(lows_len), highs(highs_len), safe_lows(safe_lows_len)
            integer(c_int32_t), intent(inout) :: safe_highs(safe_highs_len)
            integer(c_int64_t) :: returned
        end function legzhuro_bounds

        ! Turns a cell's doubles into units: units(1) to units(5) are target, low, high, safe low and safe high.
        function legzhuro_import(target, low, high, safe_low, safe_high, scale, units, units_len) result(returned) &
            bind(c, name='legzhuro_import')
            import :: c_double, c_int32_t, c_int64_t, c_size_t
            real(c_double), value :: target, low, high, safe_low, safe_high
            integer(c_int32_t), value :: scale
            integer(c_size_t), value :: units_len
            integer(c_int64_t), intent(inout) :: units(units_len)
            integer(c_int64_t) :: returned
        end function legzhuro_import

        ! Turns a mass into a double: value(1).
        function legzhuro_export(mass, scale, value, value_len) result(returned) bind(c, name='legzhuro_export')
            import :: c_double, c_int32_t, c_int64_t, c_size_t
            integer(c_int32_t), value :: mass, scale
            integer(c_size_t), value :: value_len
            real(c_double), intent(inout) :: value(value_len)
            integer(c_int64_t) :: returned
        end function legzhuro_export

        ! Turns a mass into a binary32: value(1).
        function legzhuro_export_single(mass, scale, value, value_len) result(returned) bind(c, name='legzhuro_export_single')
            import :: c_float, c_int32_t, c_int64_t, c_size_t
            integer(c_int32_t), value :: mass, scale
            integer(c_size_t), value :: value_len
            real(c_float), intent(inout) :: value(value_len)
            integer(c_int64_t) :: returned
        end function legzhuro_export_single
    end interface

contains

    ! The number of a return value: 0, or that of the refusal. The value of legzhuro_reconstruct is the number itself.
    pure integer function legzhuro_number(returned)
        integer(c_int64_t), intent(in) :: returned
        legzhuro_number = int(ibits(returned, 0, 32))
    end function legzhuro_number

    ! The place of a refusal, counted from 0.
    pure integer function legzhuro_place(returned)
        integer(c_int64_t), intent(in) :: returned
        legzhuro_place = int(ibits(returned, 32, 32))
    end function legzhuro_place

    ! The bytes of a field file of so many cells and nodes.
    pure integer(c_size_t) function legzhuro_field_file(cells, nodes)
        integer(c_size_t), intent(in) :: cells, nodes
        legzhuro_field_file = 512*(1 + (cells + 19)/20 + (nodes + 124)/125)
    end function legzhuro_field_file

    ! The bytes of an answer file of so many cells.
    pure integer(c_size_t) function legzhuro_answer_file(cells)
        integer(c_size_t), intent(in) :: cells
        legzhuro_answer_file = 512*(1 + (cells + 124)/125)
    end function legzhuro_answer_file

end module legzhuro
