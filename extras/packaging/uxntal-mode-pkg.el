;;; uxntal-mode-pkg.el --- what Emacs lists of the package  -*- no-byte-compile: t -*-
(define-package "uxntal-mode" "@VERSION@" "Uxntal sources: colours, and M-x compile by uxn" nil)
