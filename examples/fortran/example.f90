! Opens a kept field, starts its source book, steps it four times (the second step is refused for its total, the third for its
! scale), makes bounds from mixing ratios (at first with a ratio that is refused) and steps the field with them, reports its book,
! steps two tracers under one cap (a step that would pass the cap is refused), each with a book of its own, exports the masses as
! doubles and as binary32 values, writes the field as a file, also with two cells edited, and repairs these files, and repairs the
! file named.
! Usage: example FIELD_FILE. To build it, after tools/build.sh legzhuro_c:
! gfortran -Jtarget include/legzhuro.f90 examples/fortran/example.f90 target/staticlib/liblegzhuro_c.a -o target/example_fortran
program example
    use, intrinsic :: iso_c_binding, only: c_double, c_float, c_int8_t, c_int32_t, c_int64_t, c_size_t
    use legzhuro
    implicit none
    integer(c_size_t), parameter :: cells = 4, nodes = 7
    ! The field that is stepped and written.
    integer(c_int32_t), parameter :: targets(cells) = [-2, 9, 4, 5], weights(cells) = 0
    integer(c_int32_t), parameter :: parents(nodes) = [4, 4, 5, 5, 6, 6, 6]
    integer(c_int32_t) :: lows(cells) = 0, highs(cells) = 8, safe_lows(cells) = 0, safe_highs(cells) = 10
    integer(c_int32_t) :: kept(cells) = [1, 2, 3, 4], total, total_scale
    integer(c_int64_t) :: answer(5), returned
    ! The book of a kept field: its bytes, and how many of them it has.
    type source_book
        integer(c_int8_t) :: bytes(legzhuro_book)
        integer(c_size_t) :: length
    end type source_book
    type(source_book) :: book

    returned = legzhuro_open(kept, cells, 1, answer, size(answer, kind=c_size_t))
    if (returned /= 0) error stop 'the kept field was refused'
    total = int(answer(1), c_int32_t)
    total_scale = int(answer(2), c_int32_t)
    print '(2(a, i0))', 'open: total ', total, ' scale ', total_scale
    call start_book(book, total)
    call step(6, 1)
    call step(100, 1)
    call step(-9, 2)
    call step(-9, 1)
    ! Cells 0 and 1 lie below node 4. Edited so that their targets add up to what they did, they leave the masses of cells 2 and 3
    ! as they were; with another sum these move.
    call repair_written('written', targets, 16)
    call repair_written('edited', [6, 1, 4, 5], 16)
    call repair_written('another sum', [6, 9, 4, 5], 16)
    call make_bounds(legzhuro_ratio + 1)
    call make_bounds(legzhuro_ratio/4)
    call step(3, 1)
    call report_book('', book)
    call step_tracers()
    call export_masses(total_scale)
    call repair_read()

contains

    subroutine step(source, scale)
        integer(c_int32_t), intent(in) :: source, scale
        integer(c_int64_t) :: scratch(legzhuro_scratch*nodes)

        returned = legzhuro_step(total, total_scale, kept, cells, source, scale, targets, cells, lows, cells, highs, cells, &
                                 safe_lows, cells, safe_highs, cells, weights, cells, parents, nodes, scratch, &
                                 size(scratch, kind=c_size_t), book%bytes, size(book%bytes, kind=c_size_t), book%length, answer, &
                                 size(answer, kind=c_size_t))
        if (returned /= 0) then
            print '(a, i0, 3(a, i0))', 'step ', source, ' at scale ', scale, ': refused ', legzhuro_number(returned), ' ', &
                legzhuro_place(returned)
            return
        end if
        total = int(answer(2), c_int32_t)
        book%length = int(answer(5), c_size_t)
        print '(a, i0, 5(a, i0), a, *(1x, i0))', 'step ', source, ' at scale ', scale, ': outcome ', answer(1), ' total ', &
            answer(2), ' change ', answer(3), ' shared ', answer(4), ' masses', kept
    end subroutine step

    ! A book that opens with the total standing. The same replaces a book that is full, when a step is refused with 21.
    subroutine start_book(book, total)
        type(source_book), intent(inout) :: book
        integer(c_int32_t), intent(in) :: total

        returned = legzhuro_book_start(total, book%bytes, size(book%bytes, kind=c_size_t), answer, size(answer, kind=c_size_t))
        if (returned /= 0) error stop 'the book was refused'
        book%length = int(answer(1), c_size_t)
    end subroutine start_book

    subroutine report_book(name, book)
        character(*), intent(in) :: name
        type(source_book), intent(in) :: book

        returned = legzhuro_book_report(book%bytes, book%length, answer, size(answer, kind=c_size_t))
        if (returned /= 0) then
            print '(2a, i0, a, i0)', name, 'book: refused ', legzhuro_number(returned), ' ', legzhuro_place(returned)
            return
        end if
        print '(a, 5(a, i0))', name, 'book: opening ', answer(1), ' in ', answer(2), ' out ', answer(3), ' closing ', answer(4), &
            ' length ', book%length
    end subroutine report_book

    ! Two tracers over the same cells with the bounds made, under a cap of 21 on both totals together.
    subroutine step_tracers()
        integer(c_int64_t) :: family(legzhuro_family)
        integer(c_int32_t) :: tracers(cells, 0:1)
        type(source_book), save :: books(0:1)
        integer(c_int32_t) :: member

        tracers(:, 0) = [2, 4, 1, 3]
        tracers(:, 1) = [2, 4, 1, 2]
        returned = legzhuro_family_start(21_c_int64_t, 1, int(cells, c_int32_t), family, size(family, kind=c_size_t))
        if (returned /= 0) error stop 'the family was refused'
        do member = 0, 1
            returned = legzhuro_family_open(family, size(family, kind=c_size_t), member, tracers(:, member), cells, 1, answer, &
                                            size(answer, kind=c_size_t))
            if (returned /= 0) error stop 'a tracer was refused'
            print '(3(a, i0))', 'tracer ', member, ' open: total ', answer(1), ' scale ', answer(2)
            call start_book(books(member), int(answer(1), c_int32_t))
        end do
        call step_tracer(family, 1, tracers(:, 1), books(1), 3)
        do member = 1, 0, -1
            returned = legzhuro_family_register(family, size(family, kind=c_size_t), member)
            if (returned /= 0) error stop 'a tracer was refused'
        end do
        do
            returned = legzhuro_family_next(family, size(family, kind=c_size_t), answer, size(answer, kind=c_size_t))
            if (returned /= 0) error stop 'the reading was refused'
            if (answer(1) == legzhuro_nobody) exit
            call turn(family, tracers(:, answer(1)), books(answer(1)), 1)
        end do
        call report_book('tracer 0 ', books(0))
        call report_book('tracer 1 ', books(1))
    end subroutine step_tracers

    subroutine step_tracer(family, member, masses, book, source)
        integer(c_int64_t), intent(inout) :: family(:)
        integer(c_int32_t), intent(in) :: member, source
        integer(c_int32_t), intent(inout) :: masses(cells)
        type(source_book), intent(inout) :: book
        integer(c_int64_t) :: scratch(legzhuro_scratch*nodes)

        returned = legzhuro_family_step(family, size(family, kind=c_size_t), member, masses, cells, source, 1, targets, cells, &
                                        lows, cells, highs, cells, safe_lows, cells, safe_highs, cells, weights, cells, &
                                        parents, nodes, scratch, size(scratch, kind=c_size_t), book%bytes, &
                                        size(book%bytes, kind=c_size_t), book%length, answer, size(answer, kind=c_size_t))
        if (returned == 0) book%length = int(answer(5), c_size_t)
        call print_step('', int(member, c_int64_t), source, answer, masses)
    end subroutine step_tracer

    ! A turn of the next tracer, which is lent its own masses and its own book.
    subroutine turn(family, masses, book, source)
        integer(c_int64_t), intent(inout) :: family(:)
        integer(c_int32_t), intent(in) :: source
        integer(c_int32_t), intent(inout) :: masses(cells)
        type(source_book), intent(inout) :: book
        integer(c_int64_t) :: scratch(legzhuro_scratch*nodes), told(7)

        returned = legzhuro_family_turn(family, size(family, kind=c_size_t), masses, cells, source, 1, targets, cells, lows, &
                                        cells, highs, cells, safe_lows, cells, safe_highs, cells, weights, cells, parents, &
                                        nodes, scratch, size(scratch, kind=c_size_t), book%bytes, size(book%bytes, kind=c_size_t), &
                                        book%length, told, size(told, kind=c_size_t))
        if (returned /= 0) error stop 'the turn was refused'
        returned = told(2)
        if (returned == 0) book%length = int(told(7), c_size_t)
        call print_step('turn: ', told(1), source, told(3:), masses)
    end subroutine turn

    ! What a step of a tracer returned and told.
    subroutine print_step(name, member, source, told, masses)
        character(*), intent(in) :: name
        integer(c_int64_t), intent(in) :: member, told(:)
        integer(c_int32_t), intent(in) :: source, masses(cells)

        if (returned /= 0) then
            print '(2a, 4(i0, a), i0)', name, 'tracer ', member, ' step ', source, ': refused ', legzhuro_number(returned), ' ', &
                legzhuro_place(returned)
            return
        end if
        print '(2a, 6(i0, a), *(1x, i0))', name, 'tracer ', member, ' step ', source, ': outcome ', told(1), ' total ', told(2), &
            ' change ', told(3), ' shared ', told(4), ' masses', masses
    end subroutine print_step

    ! Bounds by each cell's air mass, and a ratio of a quarter but for the high ratio of cell 2. With all ratios equal and each
    ! product whole, every mass of the step is air times ratio, whatever the targets.
    subroutine make_bounds(high_ratio)
        integer(c_int32_t), intent(in) :: high_ratio
        integer(c_int32_t), parameter :: air(cells) = [8, 16, 4, 12], quarter = legzhuro_ratio/4

        returned = legzhuro_bounds(air, cells, spread(quarter, 1, int(cells)), cells, [quarter, quarter, high_ratio, quarter], &
                                   cells, lows, cells, highs, cells, safe_lows, cells, safe_highs, cells)
        if (returned /= 0) then
            print '(2(a, i0))', 'bounds: refused ', legzhuro_number(returned), ' ', legzhuro_place(returned)
            return
        end if
        print '(a, *(1x, i0))', 'bounds: lows', lows
        print '(a, *(1x, i0))', 'bounds: highs', highs
        print '(a, *(1x, i0))', 'bounds: safe lows', safe_lows
        print '(a, *(1x, i0))', 'bounds: safe highs', safe_highs
    end subroutine make_bounds

    subroutine export_masses(scale)
        integer(c_int32_t), intent(in) :: scale
        real(c_double) :: masses(cells)
        real(c_float) :: singles(cells)
        integer :: c

        do c = 1, size(kept)
            returned = legzhuro_export(kept(c), scale, masses(c:c), 1_c_size_t)
            if (returned /= 0) error stop 'a mass was refused'
            returned = legzhuro_export_single(kept(c), scale, singles(c:c), 1_c_size_t)
            if (returned /= 0) error stop 'a mass was refused'
        end do
        print '(a, *(f4.1))', 'exported:', masses
        print '(a, *(f4.1))', 'exported single:', singles
    end subroutine export_masses

    ! Repairs a field file, reads the answer and prints it after a name.
    subroutine repair(name, file)
        character(*), intent(in) :: name
        integer(c_int8_t), intent(in) :: file(:)
        integer(c_int8_t) :: answer_file(legzhuro_max_answer_file)
        integer(c_int32_t) :: masses(legzhuro_max_cells)
        integer(c_size_t) :: length

        returned = legzhuro_reconstruct(file, size(file, kind=c_size_t), answer_file, size(answer_file, kind=c_size_t))
        if (returned == 0) then
            length = legzhuro_answer_file(iand(int(file(9), c_size_t), 255_c_size_t) + 256*file(10)) ! of the file's number of cells
            returned = legzhuro_read_answer(answer_file, length, masses, size(masses, kind=c_size_t), answer, &
                                            size(answer, kind=c_size_t))
        end if
        if (returned /= 0) then
            print '(2a, i0, a, i0)', name, ': refused ', legzhuro_number(returned), ' ', legzhuro_place(returned)
            return
        end if
        print '(a, 5(a, i0), a, *(1x, i0))', name, ': outcome ', answer(2), ' cells ', answer(1), ' total ', answer(3), &
            ' change ', answer(4), ' shared ', answer(5), ' masses', masses(:answer(1))
    end subroutine repair

    ! Writes the field with these targets as a file, and repairs that.
    subroutine repair_written(name, written, total)
        character(*), intent(in) :: name
        integer(c_int32_t), intent(in) :: written(cells), total
        integer(c_int8_t) :: file(legzhuro_field_file(cells, nodes))

        returned = legzhuro_write_field(cells, nodes, total, written, cells, lows, cells, highs, cells, safe_lows, cells, &
                                        safe_highs, cells, weights, cells, parents, nodes, file, size(file, kind=c_size_t))
        if (returned /= 0) error stop 'the field was refused'
        call repair(name, file)
    end subroutine repair_written

    subroutine repair_read()
        integer(c_int8_t), allocatable :: file(:)
        character(1000) :: name
        integer :: unit, length

        if (command_argument_count() /= 1) error stop 'usage: example FIELD_FILE'
        call get_command_argument(1, name)
        open (newunit=unit, file=name, status='old', action='read', access='stream', form='unformatted')
        inquire (unit=unit, size=length)
        allocate (file(length))
        read (unit) file
        close (unit)
        call repair('file', file)
    end subroutine repair_read

end program example
