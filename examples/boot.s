| The code of the standard boot block that adf-boot installs: STANDARD_CODE of crates/adf_boot_blocks.
| The start code of an Amiga calls it with the base of exec.library in a6. It returns where AmigaDOS starts in a0, and 0 in d0; or -1 in d0,
| and the Amiga waits for another disk.
| trials/boot assembles this, and compares the bytes.

	lea	dosname(%pc),%a1	| the name of what is sought
	jsr	-96(%a6)		| FindResident
	tst.l	%d0
	beq.s	fail
	move.l	%d0,%a0
	move.l	22(%a0),%a0		| where it starts: rt_Init
	moveq	#0,%d0
	rts
fail:
	moveq	#-1,%d0
	rts
dosname:
	.asciz	"dos.library"
