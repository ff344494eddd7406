;; A session of Emacs with `srb lsp', in a folder with the wrong file `a.rb': its error is shown, it goes with an edit, and another edit
;; brings another. Ends with status 0 where all was seen.
(require 'flymake)

(defun shown ()
  (mapcar #'flymake-diagnostic-text (flymake-diagnostics)))

(defun shows (what texts)
  "Waits until just these texts are shown."
  (let ((turns 0))
    (while (and (< turns 200) (not (equal (shown) texts)))
      (accept-process-output nil 0.05)
      (setq turns (1+ turns))))
  (message "%s: %S" what (shown))
  (unless (equal (shown) texts) (kill-emacs 1)))

(find-file "a.rb")
(setq-local eglot-sync-connect t)
(apply #'eglot (eglot--guess-contact)) ; what `eglot-ensure' does once Emacs is idle
(shows "opened" '("srb [7007]: expected Integer, found String"))
(goto-char (point-min))
(search-forward "\"a\"")
(replace-match "1")
(eglot--signal-textDocument/didChange)
(shows "mended" nil)
(goto-char (point-max))
(insert "T.let(nil, String)\n")
(eglot--signal-textDocument/didChange)
(shows "broken again" '("srb [7007]: expected String, found NilClass"))
(kill-emacs 0)
